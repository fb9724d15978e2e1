//! Every public contract has two wrong answers that are ruled out.

use crate::small::project;
use pages::edits::{edits, Edit};
use pages::functions::public;
use pages::project::Project;
use pages::wrong::faults;

#[test]
fn every_public_contract_has_two_edits() {
    let project = Project::here();
    assert_eq!(faults(&project, &edits(&project)), [""; 0]);
}

/// Contracts that are clauses of an `impl`, and functions of one name in one crate.
const ALIKE: [&str; 9] = [
    "refusal: from of From<Refusal> for u32",
    "tree: default of Default for Measures",
    "instruction: from of From<Opcode> for u8",
    "machine_state: refused of Machine",
    "machine_state: refused of Answer",
    "frames: from of From<Action> for u16",
    "frames: from of From<u16> for Action",
    "frames: from of From<Role> for u16",
    "frames: from of From<u16> for Role",
];

/// The edits of others do not stand for those of a function of an `impl`.
#[test]
fn a_method_without_its_own_edits_is_found() {
    let project = Project::here();
    let all = edits(&project);
    let places = project.crates.iter();
    let mut methods: Vec<_> = places.flat_map(|place| public(&project, place)).collect();
    methods.retain(|one| one.declaration.block.is_some() && one.declaration.has_contract());
    let titles: Vec<String> = methods.iter().map(|one| one.title()).collect();
    for title in ALIKE {
        assert!(titles.iter().any(|one| one == title), "{title}");
    }
    for (method, title) in methods.iter().zip(&titles) {
        let own: Vec<_> = method
            .own_edits(&all)
            .iter()
            .map(|one| (&one.place, &one.name))
            .collect();
        let mut others = all.clone();
        others.retain(|edit| !own.contains(&(&edit.place, &edit.name)));
        assert!(others.len() < all.len(), "{title}");
        let faults = faults(&project, &others);
        let start = format!("{title} has ");
        assert!(
            faults.iter().any(|fault| fault.starts_with(&start)),
            "{title}"
        );
    }
}

/// Every edit is on the page, with its sentence.
#[test]
fn every_edit_is_shown() {
    let project = Project::here();
    let all = edits(&project);
    let in_a_row = |text: &str| text.split_whitespace().collect::<Vec<_>>().join(" ");
    let page = in_a_row(&pages::wrong::page(&project, &all));
    for edit in &all {
        let name = format!("- `{}`", edit.name);
        let says = format!(": {}", in_a_row(&edit.says));
        let is_shown = page.contains(&name) && page.contains(&says);
        assert!(is_shown, "{}/{}", edit.place, edit.name);
    }
}

const ONE: &str = "const MOST: u8 = 3;\n\n\
    pub fn first(a: u8, b: u8) -> u8\n    ensures { kept }\n{\n    second(a) + MOST\n}\n\n\
    fn second(a: u8) -> u8\n    ensures { kept }\n{\n    a\n}\n\n\
    fn third() -> u8 {\n    1\n}\n";

const TWO: &str = "pub fn same(a: u8, b: u8) -> u8\n    ensures { kept }\n{\n    \
    one::first(a, b)\n}\n\n\
    pub fn exchanged(a: u8, b: u8) -> u8\n    ensures { kept }\n{\n    one::first(b, a)\n}\n\n\
    pub fn other(a: u8, b: u8) -> u8\n    ensures { weak }\n{\n    one::first(a, b)\n}\n\n\
    pub fn bare() -> u8 {\n    1\n}\n";

fn small_project() -> Project {
    project(&[], &[("one/src/lib", ONE), ("two/src/lib", TWO)])
}

fn edit(name: &str, changes: &str) -> Edit {
    Edit {
        place: "one".to_owned(),
        name: name.to_owned(),
        says: "It would be wrong.".to_owned(),
        file: "one/src/lib".to_owned(),
        changes: vec![changes.to_owned()],
    }
}

#[test]
fn an_edit_counts_for_the_functions_that_use_what_it_changes() {
    let project = small_project();
    let functions = public(&project, "one");
    let edits = ["MOST", "second", "third", "first"].map(|name| edit(name, name));
    let found = functions[0].edits(&edits).into_iter();
    let found: Vec<&str> = found.map(|edit| &edit.name[..]).collect();
    assert_eq!(
        (functions.len(), found),
        (1, vec!["MOST", "second", "first"])
    );
    let used: Vec<&str> = functions[0]
        .uses()
        .iter()
        .map(|one| &one.name[..])
        .collect();
    assert_eq!(used, ["first", "second", "MOST"]);
}

#[test]
fn a_function_forwards_where_call_and_contract_are_the_same() {
    let project = small_project();
    let forwards = public(&project, "two").into_iter().map(|one| {
        let other = one.forwards_to(&project);
        other.map(|other| other.title())
    });
    let forwards: Vec<_> = forwards.collect();
    let first = Some("one: first".to_owned());
    assert_eq!(forwards, [first, None, None, None]);
}

#[test]
fn a_contract_with_fewer_than_two_edits_is_found() {
    let project = small_project();
    let mut found = faults(&project, &[edit("a", "MOST")]);
    found.retain(|fault| !fault.starts_with("there is no "));
    let expected = [
        "one: first has 1 edit",
        "two: exchanged has 0 edits",
        "two: other has 0 edits",
    ];
    assert_eq!(found, expected);
    let mut found = faults(&project, &[edit("a", "MOST"), edit("b", "second")]);
    found.retain(|fault| fault.starts_with("one"));
    assert_eq!(found, [""; 0]);
}
