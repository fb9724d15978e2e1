//! A Rattle file, taken apart into its declarations; the functions of an `impl` are among them.

use std::collections::BTreeSet;

use crate::imports::Import;

#[derive(Clone, Copy, Debug, PartialEq)]
pub enum Sort {
    Function,
    /// A struct or an enum.
    Type,
    Constant,
}

/// A declaration at the top of a Rattle file, or a function of an `impl` there.
#[derive(Debug)]
pub struct Declaration {
    pub sort: Sort,
    pub name: String,
    /// The `impl` that it stands in, without the word, as `Machine` or `From<u16> for Action`.
    pub block: Option<String>,
    pub is_public: bool,
    /// Its lines, counted from 0.
    pub lines: std::ops::Range<usize>,
    /// What comes before a function's body, without comments: its types, and its contract.
    pub contract: Vec<String>,
    /// The ghost clauses of the `impl` of a trait, which promise what its functions do.
    pub clauses: Vec<String>,
    /// All else, without comments.
    pub body: Vec<String>,
}

impl Declaration {
    /// The names in its body, `crate::function` as one.
    pub fn body_names(&self) -> BTreeSet<String> {
        let ends = |letter: char| !(letter.is_alphanumeric() || letter == '_' || letter == ':');
        let names = self.body.iter().flat_map(|line| line.split(ends));
        let names = names.map(|name| name.trim_matches(':'));
        names
            .filter(|name| !name.is_empty())
            .map(str::to_owned)
            .collect()
    }

    /// Its name, and the `impl` that it stands in: no other of its file has both.
    pub fn full_name(&self) -> String {
        match &self.block {
            Some(block) => format!("{} of {block}", self.name),
            None => self.name.clone(),
        }
    }

    /// The type whose `impl` it stands in, without parameters.
    pub fn owner(&self) -> Option<&str> {
        let block = self.block.as_deref()?;
        let of = block.split_once(" for ").map_or(block, |(_, of)| of);
        of.split('<').next()
    }

    /// The words between its name and its parameters: those that stand for types are there.
    pub fn type_parameters(&self) -> BTreeSet<&str> {
        let first = self.contract.first().map_or("", |line| &line[..]);
        let head = first.split('(').next().unwrap();
        let inside = head.split_once('<').map_or("", |(_, rest)| rest);
        inside
            .split(|letter: char| !letter.is_alphanumeric())
            .collect()
    }

    /// Its parameters with their types, `self` aside.
    pub fn parameters(&self) -> Vec<(String, String)> {
        let contract = self.contract.join(" ");
        let inside = contract.split_once('(').map_or("", |(_, rest)| rest);
        let inside = inside.split(')').next().unwrap();
        let all = inside.split(',').filter_map(|one| one.split_once(':'));
        let all = all.map(|(name, of)| (name.trim().to_owned(), of.trim().to_owned()));
        all.collect()
    }

    /// What it asks for and what it promises, if anything.
    pub fn promises(&self) -> Vec<&str> {
        let lines = self.contract.iter().map(|line| line.trim());
        let begins = |line: &&str| line.starts_with("requires") || line.starts_with("ensures");
        let clauses = self.clauses.iter().map(|clause| &clause[..]);
        lines
            .skip_while(|line| !begins(line))
            .chain(clauses)
            .collect()
    }

    /// Whether it promises something. (Which function of its `impl` a clause speaks of is the
    /// trait's matter: it counts for each.)
    pub fn has_contract(&self) -> bool {
        let mut lines = self.promises().into_iter();
        !self.clauses.is_empty() || lines.any(|line| line.starts_with("ensures"))
    }
}

/// A Rattle file: its `ghost use` lines, the names that its other `use` lines bring in, each with
/// its crate, and its declarations.
#[derive(Debug, Default)]
pub struct Source {
    pub imports: Vec<Import>,
    pub used: Vec<(String, String)>,
    pub declarations: Vec<Declaration>,
}

impl Source {
    pub fn new(text: &str, crates: &[String]) -> Source {
        let mut source = Source::default();
        // A `use` item, which may go on for some lines.
        let mut item = String::new();
        // The `impl` whose functions follow, if one is open.
        let mut block: Option<Block> = None;
        for (number, line) in text.lines().enumerate() {
            let line = line.split("//").next().unwrap().trim_end();
            if let Some(mut open) = block.take() {
                if line == "}" {
                    source.close(&open);
                } else {
                    source.read_inside(&mut open, number, line);
                    block = Some(open);
                }
            } else if line.starts_with("impl") {
                block = Block::new(line, source.declarations.len());
            } else if !item.is_empty() || line.starts_with("use ") || line.starts_with("ghost use ")
            {
                item += line.trim_start();
                if line.ends_with(';') {
                    source.read_use(item.trim_end_matches(';'), crates);
                    item.clear();
                }
            } else {
                source.read_line(number, line);
            }
        }
        source
    }

    /// A line of an `impl`.
    fn read_inside(&mut self, block: &mut Block, number: usize, line: &str) {
        let line = line.strip_prefix("    ").unwrap_or(line);
        let known = self.declarations.len();
        if block.takes(line) || known == block.first && declaration(number, line).is_none() {
            return;
        }
        self.read_line(number, line);
        if let Some(new) = self.declarations.get_mut(known) {
            new.block = Some(block.head.clone());
            new.is_public |= block.is_of_trait();
        }
    }

    /// The end of an `impl`.
    fn close(&mut self, block: &Block) {
        if block.is_of_trait() {
            for one in &mut self.declarations[block.first..] {
                one.clauses.clone_from(&block.clauses);
            }
        }
    }

    fn read_use(&mut self, item: &str, crates: &[String]) {
        if let Some(import) = item.strip_prefix("ghost ") {
            let import = Import::new(import, crates);
            self.imports.push(import.expect("a ghost use item"));
            return;
        }
        let path = item.trim_start_matches("use ");
        let (place, names) = path.split_once("::").expect("crate::name");
        let names = names.trim_start_matches('{').trim_end_matches('}');
        let names = names.split(',').map(str::trim);
        let names = names.filter(|name| !name.is_empty());
        let names = names.map(|name| (place.to_owned(), name.to_owned()));
        self.used.extend(names);
    }

    fn read_line(&mut self, number: usize, line: &str) {
        if line.is_empty() || line.starts_with("#[") || line.starts_with("#![") {
            return;
        }
        if let Some(declaration) = declaration(number, line) {
            self.declarations.push(declaration);
        }
        let Some(last) = self.declarations.last_mut() else {
            return;
        };
        last.lines.end = number + 1;
        let in_contract = last.sort == Sort::Function && last.body.is_empty();
        if in_contract && line != "{" {
            last.contract.push(line.to_owned());
        }
        // A body begins in a line of its own, or at the end of the types.
        if in_contract && !line.starts_with(' ') && line.ends_with('{') {
            last.body.push("{".to_owned());
        } else if !in_contract {
            last.body.push(line.to_owned());
        }
    }

    pub fn find(&self, name: &str) -> Option<&Declaration> {
        self.declarations.iter().find(|one| one.name == name)
    }

    pub fn at_line(&self, line: usize) -> Option<&Declaration> {
        self.declarations
            .iter()
            .find(|one| one.lines.contains(&line))
    }
}

/// An `impl` whose functions are being read.
struct Block {
    /// Its first line without the word, its own parameters and `'_`.
    head: String,
    /// Its ghost clauses; the last one may not be read to its end.
    clauses: Vec<String>,
    /// How many declarations stand before it.
    first: usize,
}

impl Block {
    /// The `impl` that begins in this line, if it does not end there too.
    fn new(line: &str, first: usize) -> Option<Block> {
        if line.ends_with('}') {
            return None;
        }
        let said = line.strip_suffix('{').expect("an impl on one line");
        let said = said.trim_start_matches("impl");
        let mut depth = 0;
        let parameters = said.find(|letter: char| {
            depth += i32::from(letter == '<') - i32::from(letter == '>');
            depth == 0
        });
        let head = said[parameters.unwrap() + 1..].replace("<'_>", "");
        Some(Block {
            head: head.trim().to_owned(),
            clauses: Vec::new(),
            first,
        })
    }

    fn is_of_trait(&self) -> bool {
        self.head.contains(" for ")
    }

    /// Whether a line is of a ghost clause. It is added to the clauses then.
    fn takes(&mut self, line: &str) -> bool {
        let is_open = |clause: &&mut String| {
            let count = |sign| clause.matches(sign).count();
            !clause.ends_with(';') || count('{') != count('}')
        };
        if let Some(last) = self.clauses.last_mut().filter(is_open) {
            *last += &format!(" {}", line.trim());
            return true;
        }
        let begins = line.starts_with("ghost ");
        if begins {
            self.clauses.push(line.to_owned());
        }
        begins
    }
}

/// The declaration that begins in this line, if one does.
fn declaration(number: usize, line: &str) -> Option<Declaration> {
    let is_public = line.starts_with("pub ");
    let mut all = line.split(|letter: char| letter.is_whitespace() || "(<{:;".contains(letter));
    let sort = loop {
        match all.next()? {
            "fn" => break Sort::Function,
            "struct" | "enum" => break Sort::Type,
            "const" => break Sort::Constant,
            "pub" | "extern" | "\"C\"" => (),
            _ => return None,
        }
    };
    Some(Declaration {
        sort,
        name: all.next()?.to_owned(),
        block: None,
        is_public,
        lines: number..number + 1,
        contract: Vec::new(),
        clauses: Vec::new(),
        body: Vec::new(),
    })
}
