//! What the promises rest on, definition by definition.

use std::collections::btree_map::Entry;
use std::collections::{BTreeMap, BTreeSet};

use crate::imports::{Import, Module};
use crate::items::AnttFile;
use crate::project::{crate_of, Project};
use crate::roots::{CONTRACTS, OF_DEFINITIONS, STATEMENTS};
use crate::source::Sort;
use crate::words::{uses, words};

/// Something that must be believed.
#[derive(Clone, Debug, PartialEq, Eq, PartialOrd, Ord)]
pub enum Believed {
    /// A definition: its file, and which one of it.
    Definition(String, usize),
    /// A name of a file in proofs/, where nothing believed should stand. What it rests on itself is
    /// not looked for.
    Proved(String, String),
    /// A struct or an enum: its crate and its name.
    Declared(String, String),
    /// A name of the kit's library: its module and its name.
    Kit(String, String),
}

/// All that must be believed, and of each definition what it rests on itself.
pub struct Closure {
    pub rests_on: BTreeMap<Believed, Vec<Believed>>,
}

impl Closure {
    /// What the promises of the project rest on.
    pub fn new(project: &Project) -> Closure {
        let mut roots = all_contracts(project);
        for (place, name) in STATEMENTS.iter().chain(&OF_DEFINITIONS) {
            roots.extend(definitions(project, place, name));
        }
        Closure::from(project, roots)
    }

    /// What the contracts of the calls and of the listing program alone rest on.
    pub fn of_calls(project: &Project) -> Closure {
        Closure::from(project, all_contracts(project))
    }

    pub fn from(project: &Project, roots: Vec<Believed>) -> Closure {
        let (mut rests_on, mut open) = (BTreeMap::new(), roots);
        while let Some(one) = open.pop() {
            if let Entry::Vacant(place) = rests_on.entry(one) {
                let under = under(project, place.key());
                open.extend(under.iter().cloned());
                place.insert(under);
            }
        }
        Closure { rests_on }
    }

    /// The files with something believed, each with the believed definitions in it.
    pub fn files(&self) -> BTreeMap<&str, BTreeSet<usize>> {
        let mut files: BTreeMap<&str, BTreeSet<usize>> = BTreeMap::new();
        for one in self.rests_on.keys() {
            if let Believed::Definition(place, item) = one {
                files.entry(place).or_default().insert(*item);
            }
        }
        files
    }

    /// The files whose definitions the believed ones of this file rest on.
    pub fn files_under(&self, place: &str) -> BTreeSet<&str> {
        let here = |one: &Believed| matches!(one, Believed::Definition(file, _) if file == place);
        let all = self.rests_on.iter().filter(|(one, _)| here(one));
        let under = all.flat_map(|(_, under)| under);
        let files = under.filter_map(|one| match one {
            Believed::Definition(file, _) if file != place => Some(&file[..]),
            _ => None,
        });
        files.collect()
    }
}

/// What the contracts of these functions name, or of all functions where none is named.
pub fn contract_roots(project: &Project, place: &str, functions: &[&str]) -> Vec<Believed> {
    let source = &project.sources[place];
    for name in functions {
        assert!(source.find(name).is_some(), "{place}.rt has no {name}");
    }
    let is_root = |name: &str| functions.is_empty() || functions.contains(&name);
    let mut roots = Vec::new();
    for one in &source.declarations {
        if one.sort == Sort::Function && is_root(&one.name) {
            let lines = [&one.contract[..], &one.clauses[..]].concat();
            let words = lines.iter().flat_map(|line| words(line)).collect();
            roots.extend(imported(project, &source.imports, &words));
            roots.extend(declared_types(project, crate_of(place), &lines));
        }
    }
    roots
}

fn all_contracts(project: &Project) -> Vec<Believed> {
    let contracts = CONTRACTS.iter();
    let roots = contracts.map(|one| contract_roots(project, one.place, one.functions));
    roots.flatten().collect()
}

/// The definitions of this name in a file: one, if the name is not a constructor's or a field's.
pub fn definitions(project: &Project, place: &str, name: &str) -> Vec<Believed> {
    let file = project.files.get(place);
    let file = file.unwrap_or_else(|| panic!("there is no {place}.antt"));
    let items = file.declaring(name).into_iter();
    let found: Vec<Believed> = items
        .map(|item| Believed::Definition(place.to_owned(), item))
        .collect();
    assert!(!found.is_empty(), "{place}.antt declares no {name}");
    found
}

/// What something rests on itself.
fn under(project: &Project, one: &Believed) -> Vec<Believed> {
    match one {
        Believed::Definition(place, item) => {
            let file = &project.files[place];
            let words = &file.items[*item].words;
            let mut under = own(file, place, *item, words);
            under.extend(imported(project, &file.imports, words));
            under
        }
        Believed::Declared(place, name) => {
            let sources = project.sources_of(place);
            let mut found = sources.filter_map(|source| source.find(name));
            let one = found.next();
            let one = one.unwrap_or_else(|| panic!("{place} declares no {name}"));
            declared_types(project, place, &one.body)
        }
        Believed::Proved(..) | Believed::Kit(..) => Vec::new(),
    }
}

/// The other definitions of the same file that some words use.
fn own(file: &AnttFile, place: &str, item: usize, words: &BTreeSet<String>) -> Vec<Believed> {
    let others = file.items.iter().enumerate();
    let used = others.filter(|(other, one)| *other != item && one.is_used(words));
    used.map(|(other, _)| Believed::Definition(place.to_owned(), other))
        .collect()
}

/// What some words use of what is imported.
fn imported(project: &Project, imports: &[Import], words: &BTreeSet<String>) -> Vec<Believed> {
    let mut found = Vec::new();
    for import in imports {
        let names = import.names.iter().filter(|name| uses(words, &name.here));
        found.extend(names.flat_map(|name| believed(project, &import.module, &name.there)));
        if let Some(whole) = import.whole.as_ref().filter(|name| words.contains(*name)) {
            found.extend(whole_module(project, &import.module, whole));
        }
    }
    found
}

fn believed(project: &Project, module: &Module, name: &str) -> Vec<Believed> {
    match module {
        Module::File(place) if is_proof(place) => {
            vec![Believed::Proved(place.clone(), name.to_owned())]
        }
        Module::File(place) => definitions(project, place, name),
        Module::Declared { place, name } => vec![Believed::Declared(place.clone(), name.clone())],
        Module::Kit(module) => vec![Believed::Kit(module.clone(), name.to_owned())],
    }
}

/// Whether a file stands in proofs/.
pub fn is_proof(place: &str) -> bool {
    place.split('/').nth(1) == Some("proofs")
}

/// Everything in a module that is imported under one name.
fn whole_module(project: &Project, module: &Module, name: &str) -> Vec<Believed> {
    match module {
        Module::File(place) if !is_proof(place) => {
            let items = 0..project.files[place].items.len();
            let all = items.map(|item| Believed::Definition(place.clone(), item));
            all.collect()
        }
        _ => believed(project, module, name),
    }
}

/// The structs and enums that lines of a crate's Rattle source name.
fn declared_types(project: &Project, place: &str, lines: &[String]) -> Vec<Believed> {
    let ends = |letter: char| !letter.is_alphanumeric() && letter != '_';
    let words = lines.iter().flat_map(|line| line.split(ends));
    let words: BTreeSet<&str> = words.collect();
    let mut found = Vec::new();
    for source in project.sources_of(place) {
        let types = source.declarations.iter();
        let types = types.filter(|one| one.sort == Sort::Type && words.contains(&one.name[..]));
        found.extend(types.map(|one| Believed::Declared(place.to_owned(), one.name.clone())));
        let used = source
            .used
            .iter()
            .filter(|(_, name)| words.contains(&name[..]));
        let used = used.filter(|(place, _)| project.crates.contains(place));
        found.extend(used.map(|(place, name)| Believed::Declared(place.clone(), name.clone())));
    }
    found
}
