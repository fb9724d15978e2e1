//! An antt file, taken apart into its definitions.

use std::collections::BTreeSet;

use crate::imports::Import;
use crate::words::{uses, without_comment, words};

/// A definition: a data type, a record, or a function with its type and its clauses.
#[derive(Debug, Default)]
pub struct Item {
    pub name: String,
    pub constructors: Vec<String>,
    pub fields: Vec<String>,
    /// All words in it.
    pub words: BTreeSet<String>,
    /// Its lines, counted from 0, without comments and blank lines.
    pub lines: Vec<usize>,
    is_record: bool,
    has_members: bool,
}

impl Item {
    /// Whether these words use it: its name, a constructor, or a field where it is projected.
    ///
    /// A field may be used without a point too, or in `record { .. }`. Then the record's own name
    /// stands in the type of something in the same definition, so that nothing is left out.
    pub fn is_used(&self, words: &BTreeSet<String>) -> bool {
        let mut names = std::iter::once(&self.name).chain(&self.constructors);
        let mut fields = self.fields.iter().map(|field| format!(".{field}"));
        names.any(|name| uses(words, name)) || fields.any(|field| words.contains(&field))
    }

    /// Whether it declares this name.
    pub fn declares(&self, name: &str) -> bool {
        let members = self.constructors.iter().chain(&self.fields);
        self.name == name || members.into_iter().any(|member| member == name)
    }
}

/// A file: its first sentence, its number of lines, its `use` lines and its definitions.
#[derive(Debug, Default)]
pub struct AnttFile {
    pub about: String,
    pub lines: usize,
    pub imports: Vec<Import>,
    pub items: Vec<Item>,
    /// The files that it declares as parts, in order.
    pub parts: Vec<String>,
}

/// What may stand before a declaration.
const MODIFIERS: [&str; 4] = ["pub", "abbrev", "unfoldable", "opaque"];

/// Forms that definitions don't need. A file that has one can't be taken apart here.
const UNKNOWN: [&str; 5] = ["use", "open", "instance", "unfolding", "private"];

/// Where the reading of a file stands: the definition that goes on, and the blocks around it.
#[derive(Default)]
struct Reading {
    current: Option<usize>,
    blocks: Vec<Block>,
}

/// A block `mutual`, or `module _ (..) where`: where its definitions begin, and its words.
struct Block {
    indent: usize,
    words: Vec<String>,
}

impl Reading {
    fn indent(&self) -> usize {
        self.blocks.last().map_or(0, |block| block.indent)
    }
}

impl AnttFile {
    pub fn new(text: &str, crates: &[String]) -> AnttFile {
        let mut file = AnttFile {
            about: first_sentence(text),
            lines: text.lines().count(),
            ..AnttFile::default()
        };
        let mut reading = Reading::default();
        for (number, line) in text.lines().enumerate() {
            let line = without_comment(line).trim_end();
            if !line.is_empty() {
                file.read_line(&mut reading, number, line, crates);
            }
        }
        file
    }

    fn read_line(&mut self, reading: &mut Reading, number: usize, line: &str, crates: &[String]) {
        let said = line.trim_start();
        let indent = line.len() - said.len();
        let closes = said.starts_with([']', ')', '|']);
        while indent < reading.indent() && !closes {
            reading.blocks.pop();
        }
        if indent == reading.indent() && !closes {
            if let Some(import) = Import::new(said, crates) {
                self.imports.push(import);
                return;
            }
            if matches!(bare(said)[0], "mutual" | "module") {
                let indent = indent + 2;
                let words = words(said);
                reading.blocks.push(Block { indent, words });
                reading.current = None;
                return;
            }
            if let Some(part) = said.strip_prefix("pub mod ") {
                self.parts.push(part.to_owned());
                return;
            }
            reading.current = Some(self.begin(said, reading));
        }
        let current = reading.current.expect("a line outside of all definitions");
        let item = &mut self.items[current];
        item.words.extend(words(said));
        item.lines.push(number);
        if item.has_members && indent == reading.indent() + 2 {
            add_members(item, said);
        }
    }

    /// The definition that a line begins or goes on with.
    fn begin(&mut self, said: &str, reading: &Reading) -> usize {
        let all: Vec<&str> = said.split_whitespace().collect();
        let bare = bare(said);
        let is_known = !UNKNOWN.contains(&bare[0]);
        assert!(is_known, "a form that is not known: {said}");
        let has_members = bare[0] == "data" || bare[0] == "record";
        let declares = has_members || bare.len() < all.len() || bare.get(1) == Some(&":");
        if !declares {
            let named = self.items.iter().rposition(|item| item.name == bare[0]);
            return named
                .or(reading.current)
                .expect("a clause without its type");
        }
        let name = bare[usize::from(has_members)].to_owned();
        let around = reading.blocks.iter().flat_map(|block| &block.words);
        self.items.push(Item {
            name,
            has_members,
            is_record: bare[0] == "record",
            words: around.cloned().collect(),
            ..Item::default()
        });
        self.items.len() - 1
    }

    /// The definitions with this name, constructor or field.
    pub fn declaring(&self, name: &str) -> Vec<usize> {
        let all = self.items.iter().enumerate();
        let all = all.filter(|(_, item)| item.declares(name));
        all.map(|(number, _)| number).collect()
    }

    /// The definition that a line, counted from 0, stands in.
    pub fn at_line(&self, line: usize) -> Option<&Item> {
        self.items.iter().find(|item| item.lines.contains(&line))
    }
}

/// The words of a line without the modifiers before them.
fn bare(said: &str) -> Vec<&str> {
    let all = said.split_whitespace();
    all.skip_while(|word| MODIFIERS.contains(word)).collect()
}

/// Adds the constructors or fields that a line declares: the words before its first colon.
fn add_members(item: &mut Item, said: &str) {
    let all: Vec<&str> = said.split_whitespace().collect();
    let Some(colon) = all.iter().position(|word| *word == ":") else {
        return;
    };
    let names = all[..colon].iter();
    let names = names.filter(|word| !MODIFIERS.contains(word) && !word.contains(['(', '{', '→']));
    let names = names.map(|word| (*word).to_owned());
    if item.is_record {
        item.fields.extend(names);
    } else {
        item.constructors.extend(names);
    }
}

/// The first sentence of the comment that a file begins with.
pub fn first_sentence(text: &str) -> String {
    let comment = text.lines().map_while(|line| line.strip_prefix("--"));
    let comment = comment.take_while(|line| !line.trim().is_empty());
    let words: Vec<&str> = comment.flat_map(str::split_whitespace).collect();
    let all = words.join(" ");
    let end = all.find(". ").map_or(all.len(), |end| end + 1);
    all[..end].to_owned()
}
