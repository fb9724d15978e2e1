//! The page of what must be believed.

use std::collections::{BTreeMap, BTreeSet};

use crate::checks::{idle_definitions, is_inner};
use crate::closure::{Believed, Closure};
use crate::project::{crate_of, Project};
use crate::roots::{CONTRACTS, OF_DEFINITIONS, STATEMENTS};
use crate::text::{counted, number, quoted, sentence, wrapped, MADE};

const INTRODUCTION: &str = "Whoever relies on Hogvax must believe that the definitions below say \
    what is meant. All else is proved about them, or tested. They are those on which the promises \
    rest: each definition that a promise names, each that one of these names, and so on. The list \
    goes by definition, not by file. Crates and files stand in reading order: each after those \
    that it rests on.";

const TRUSTED: &str = "The command line, the readers of program texts and of Newick, and all that \
    they print are tested, not proved. The prover, the kit with its library, the compilers and \
    the machine are trusted.";

/// The page `docs/BELIEVE.md`.
pub fn page(project: &Project, closure: &Closure) -> String {
    let mut page = format!("# What must be believed\n{MADE}\n\n");
    page += &wrapped("", "", INTRODUCTION);
    page += &format!("\n{}", wrapped("", "", TRUSTED));
    page += &totals(project, closure);
    page += &promises();
    let calls = Closure::of_calls(project);
    for place in &project.crates {
        page += &section(project, closure, &calls, place);
    }
    page += &declared(closure);
    page += &kit(closure);
    page += &idle(project, closure);
    page + &not_believed(project, closure)
}

/// The lines of the believed definitions of a file, without comments and blank lines.
fn believed_lines(project: &Project, place: &str, items: &BTreeSet<usize>) -> usize {
    let file = &project.files[place];
    items.iter().map(|item| file.items[*item].lines.len()).sum()
}

/// A row of figures: files, their lines, of which are believed, and definitions.
fn figures(project: &Project, files: &BTreeMap<&str, BTreeSet<usize>>) -> [usize; 4] {
    let lines = files.keys().map(|place| project.files[*place].lines).sum();
    let believed = files.iter();
    let believed = believed.map(|(place, items)| believed_lines(project, place, items));
    let definitions = files.values().map(BTreeSet::len).sum();
    [files.len(), lines, believed.sum(), definitions]
}

fn totals(project: &Project, closure: &Closure) -> String {
    let [files, lines, believed, definitions] = figures(project, &closure.files());
    let said = format!(
        "In all: {} in {}. The files have {}, of which {} are lines of believed \
         definitions; the others are comments, blank lines, imports, and what nothing believed \
         rests on.",
        counted(definitions, "definition"),
        counted(files, "file"),
        counted(lines, "line"),
        number(believed),
    );
    let [files, lines, believed, definitions] =
        figures(project, &Closure::of_calls(project).files());
    let calls = format!(
        "Whoever calls Hogvax, and asks no more than what the contracts of the calls and of the \
         listing program say, need believe {} in {} with {}, of which {} are theirs: the column \
         \"calls\" counts them. The rest is what the statements say besides.",
        counted(definitions, "definition"),
        counted(files, "file"),
        counted(lines, "line"),
        number(believed),
    );
    format!("\n{}\n{}", wrapped("", "", &said), wrapped("", "", &calls))
}

fn promises() -> String {
    let mut page = "\n## What is promised\n\n".to_owned();
    for contracts in &CONTRACTS {
        let functions = match contracts.functions {
            [] => "all functions".to_owned(),
            some => quoted(some),
        };
        let said = format!(
            "the contracts of {}: `crates/{}.rt`, {functions}",
            contracts.what, contracts.place
        );
        page += &wrapped("- ", "  ", &said);
    }
    let cited = |statements: &[(&str, &str)]| {
        let statements = statements.iter();
        quoted(statements.map(|(place, name)| format!("{place}: {name}")))
    };
    let said = format!("the statements of the demands: {}", cited(&STATEMENTS));
    page += &wrapped("- ", "  ", &said);
    let said = format!(
        "and of three definitions that they say what they seem to: {}",
        cited(&OF_DEFINITIONS)
    );
    page + &wrapped("- ", "  ", &said)
}

/// The believed files of a crate: each after those that it rests on, else as its list has them.
pub fn reading_order<'a>(project: &'a Project, closure: &'a Closure, place: &str) -> Vec<&'a str> {
    let listed = project.files.get(&format!("{place}/specs/Lib"));
    let listed = listed.map_or(&[][..], |file| &file.parts[..]);
    let mut files: Vec<&str> = closure.files().into_keys().collect();
    files.retain(|file| crate_of(file) == place);
    files.sort_by_key(|file| {
        let name = file.rsplit('/').next().unwrap();
        listed.iter().position(|part| part == name)
    });
    let mut ordered = Vec::new();
    for file in &files {
        follow(closure, &files, file, &mut ordered);
    }
    ordered
}

/// Adds a file after those of `files` that it rests on.
fn follow<'a>(closure: &'a Closure, files: &[&'a str], file: &'a str, ordered: &mut Vec<&'a str>) {
    if ordered.contains(&file) {
        return;
    }
    for under in closure.files_under(file) {
        if let Some(under) = files.iter().find(|one| **one == under) {
            follow(closure, files, under, ordered);
        }
    }
    ordered.push(file);
}

fn section(project: &Project, closure: &Closure, calls: &Closure, place: &str) -> String {
    let files = reading_order(project, closure, place);
    if files.is_empty() {
        return String::new();
    }
    let mut table =
        "| file | lines | believed | definitions | calls |\n|---|---|---|---|---|\n".to_owned();
    let mut list = String::new();
    for name in files {
        let (file, items) = (&project.files[name], &closure.files()[name]);
        let believed = believed_lines(project, name, items);
        let short = name
            .strip_prefix(place)
            .unwrap()
            .trim_start_matches("/specs/");
        let (lines, definitions) = (file.lines, items.len());
        let called = calls.files().get(name).map_or(0, BTreeSet::len);
        table += &format!("| `{short}` | {lines} | {believed} | {definitions} | {called} |\n");
        let names = quoted(items.iter().map(|item| &file.items[*item].name));
        let said = format!("**{short}.** {} {names}", sentence(&file.about));
        list += &wrapped("- ", "  ", &said);
    }
    format!("\n## `crates/{place}/specs`\n\n{table}\n{list}")
}

/// Names by where they stand, a list item for each.
fn by_place<'a>(names: impl Iterator<Item = (&'a String, &'a String)>) -> String {
    let mut places: BTreeMap<&str, Vec<&str>> = BTreeMap::new();
    for (place, name) in names {
        places.entry(place).or_default().push(name);
    }
    let items = places.into_iter();
    let items =
        items.map(|(place, names)| wrapped("- ", "  ", &format!("`{place}`: {}", quoted(names))));
    let items: String = items.collect();
    if items.is_empty() {
        return "None.\n".to_owned();
    }
    items
}

fn declared(closure: &Closure) -> String {
    let all = closure.rests_on.keys();
    let names = all.filter_map(|one| match one {
        Believed::Declared(place, name) => Some((place, name)),
        _ => None,
    });
    let said = by_place(names);
    format!("\n## Structs and enums of Rattle sources\n\nBy their crates.\n\n{said}")
}

fn kit(closure: &Closure) -> String {
    let all = closure.rests_on.keys();
    let names = all.filter_map(|one| match one {
        Believed::Kit(module, name) => Some((module, name)),
        _ => None,
    });
    let said = by_place(names);
    let own = "By their modules. `Type`, `Unit`, `tt`, `⊥` and `×` are the language's own.";
    format!("\n## Names of the kit's library\n\n{own}\n\n{said}")
}

fn idle(project: &Project, closure: &Closure) -> String {
    let idle = idle_definitions(project, closure);
    let names: Vec<(String, String)> = idle
        .iter()
        .filter_map(|one| one.split_once(": "))
        .map(|(place, name)| (place.to_owned(), name.to_owned()))
        .collect();
    let said = by_place(names.iter().map(|(place, name)| (place, name)));
    format!("\n## Definitions of these files that no promise rests on\n\n{said}")
}

fn not_believed(project: &Project, closure: &Closure) -> String {
    let believed = closure.files();
    let all = project
        .files
        .iter()
        .filter(|(_, file)| !file.items.is_empty());
    let others = all.filter(|(place, _)| !believed.contains_key(&place[..]));
    let names: Vec<(String, String)> = others
        .map(|(place, _)| {
            let short = place
                .split_once("/specs/")
                .map_or(&place[..], |(_, name)| name);
            (crate_of(place).to_owned(), short.to_owned())
        })
        .collect();
    let inner = names
        .iter()
        .filter(|(place, name)| is_inner(&format!("{place}/specs/{name}")));
    let said = format!(
        "Invariants, and contracts of functions that are not exported: {}, {} of them in \
         `specs/Inner/`.",
        counted(names.len(), "file"),
        inner.count()
    );
    let list = by_place(names.iter().map(|(place, name)| (place, name)));
    let said = wrapped("", "", &said);
    format!("\n## Files of specs/ that nobody need believe\n\n{said}\n{list}")
}
