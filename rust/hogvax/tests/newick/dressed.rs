//! Newick text with all that may stand in it besides trees.

use std::collections::BTreeMap;

use reference::{Random, Tree};

/// Texts that may stand between items. No item needs one.
const BLANKS: [(&str, &str); 10] = [
    ("space", " "),
    ("tab", "\t"),
    ("line", "\n"),
    ("line of Windows", "\r\n"),
    ("return", "\r"),
    ("comment", "[a comment]"),
    ("empty comment", "[]"),
    ("comment in a comment", "[&R [two] [[three]]]"),
    ("comment of signs", "[( , ' : ;]"),
    ("comment not in ASCII", "[Bäume 樹\n🌳]"),
];

const LENGTHS: [&str; 12] = [
    "0", "1", "-1", "+12", "0.125", ".5", "5.", "-.5", "1e3", "1E-3", "2.5e+10", "00.0",
];

const NAMES: [&str; 10] = [
    "95",
    "0.99",
    "Homo_sapiens",
    "A|b-c.d/e\"f",
    "Bäume",
    "''",
    "'a b'",
    "'it''s'",
    "'(,);:[]'",
    "'line\nend'",
];

/// Writes trees as text, dressed with all that is skipped.
pub struct Writer<'a> {
    random: &'a mut Random,
    pub text: String,
    pub lengths: usize,
    pub names: usize,
    /// How often each form of an item was written.
    pub seen: BTreeMap<String, usize>,
}

impl Writer<'_> {
    pub fn new(random: &mut Random) -> Writer<'_> {
        Writer {
            random,
            text: String::new(),
            lengths: 0,
            names: 0,
            seen: BTreeMap::new(),
        }
    }

    fn see(&mut self, form: impl Into<String>) {
        *self.seen.entry(form.into()).or_insert(0) += 1;
    }

    /// Whitespace and comments, or nothing.
    pub fn blank(&mut self) {
        while self.random.below(3) == 0 {
            let (form, text) = self.random.pick(&BLANKS);
            self.see(form);
            self.text += text;
        }
    }

    fn item(&mut self, text: &str) {
        self.blank();
        self.text += text;
    }

    /// A tree and its `;`.
    pub fn tree(&mut self, tree: &Tree) {
        self.branch(tree, "root");
        self.item(";");
    }

    fn branch(&mut self, tree: &Tree, above: &str) {
        match tree {
            Tree::Leaf(label) => {
                let name = self.tip(*label);
                self.item(&name);
            }
            Tree::Node(left, right) => {
                self.item("(");
                self.branch(left, "fork");
                self.item(",");
                self.branch(right, "fork");
                self.item(")");
                self.fork_name();
            }
        }
        if self.random.below(3) == 0 {
            self.see(format!("length under {above}"));
            self.lengths += 1;
            self.item(":");
            let length = self.random.pick(&LENGTHS);
            self.see(format!("length {length}"));
            self.item(length);
        }
    }

    /// A label in one of its forms.
    fn tip(&mut self, label: i32) -> String {
        let size = label.unsigned_abs();
        let sign = match label {
            ..=-1 => "-",
            _ => self.random.pick(&["", "", "+"]),
        };
        let zeros = self.random.pick(&["", "", "0", "00000000000000000000"]);
        self.see(format!("sign '{sign}'"));
        self.see(format!("{} zeros", zeros.len()));
        match self.random.below(3) {
            0 => {
                self.see("tip in quotes");
                format!("'{sign}{zeros}{size}'")
            }
            _ => {
                self.see("bare tip");
                format!("{sign}{zeros}{size}")
            }
        }
    }

    fn fork_name(&mut self) {
        if self.random.below(3) == 0 {
            let name = self.random.pick(&NAMES);
            self.see(format!("name {name}"));
            self.names += 1;
            self.item(name);
        }
    }
}

/// How many forms there are: blanks, lengths and names; lengths under the root
/// and under forks; three signs, none, one or twenty zeros, quotes or none.
pub const FORMS: usize = BLANKS.len() + LENGTHS.len() + NAMES.len() + 2 + 3 + 3 + 2;
