//! What the static libraries define and what they need.

use std::collections::BTreeSet;

use super::faults::OF_THE_C_LIBRARY;
use super::*;

/// The last words of the comment on each call that both libraries have.
const IN_BOTH: &str = "In both libraries.";

/// The names of the calls that the header declares, of those whose comment is taken.
fn declared(takes: impl Fn(&str) -> bool) -> BTreeSet<String> {
    let mut names = BTreeSet::new();
    for piece in HEADER.split("/*") {
        let (comment, code) = piece.split_once("*/").unwrap_or(("", piece));
        let call = code.split(|letter: char| !letter.is_alphanumeric() && letter != '_');
        let name = call.into_iter().find(|word| word.starts_with("hogvax_"));
        if code.contains(");") && takes(comment) {
            names.extend(name.map(str::to_owned));
        }
    }
    names
}

/// The names of global symbols in an archive, defined or not.
fn global(archive: &Path, is_defined: bool) -> BTreeSet<String> {
    let objects = disassembled(archive);
    let symbols = objects.iter().flat_map(|object| &object.symbols);
    let taken = symbols.filter(|one| one.is_global && one.is_defined() == is_defined);
    taken.map(|one| one.name.clone()).collect()
}

#[test]
fn the_libraries_have_the_calls_that_the_header_says() {
    let (all, both) = (declared(|_| true), declared(|said| said.contains(IN_BOTH)));
    assert_eq!((all.len(), both.len()), (10, 2));
    assert_eq!(global(&archives::whole(), true), all);
    assert_eq!(global(&archives::view(), true), both);
}

/// Nothing but one or two routines of the C library.
#[test]
fn the_libraries_need_what_the_page_says() {
    let page = include_str!("../../../../docs/CALLING.md");
    for (archive, needed) in [
        (archives::whole(), &OF_THE_C_LIBRARY[..]),
        (archives::view(), &["memset"]),
    ] {
        let said = needed.iter().map(|name| format!("`{name}`"));
        let said = said.collect::<Vec<_>>().join(", ");
        assert!(page.contains(&format!("the C library ({said})")), "{said}");
        let needed: BTreeSet<String> = needed.iter().map(|&name| name.to_owned()).collect();
        assert_eq!(global(&archive, false), needed, "{archive:?}");
    }
}
