//! `listing`.

use reference::generate::{damaged_file, ordered};
use reference::translate::known;
use reference::{lay_out, listing, Random};

use super::*;

/// What it prints for these bytes is the reference's listing.
fn assert_listed(input: &[u8]) -> String {
    let text = listing(input);
    let status = i32::from(text.starts_with("refused "));
    assert_says(&run_on(&["listing"], input), status, &text);
    text
}

/// Document 01's listing of Grow.
#[test]
fn listing_prints_document_01s_listing() {
    let grow = sample("programs/grow.program");
    assert_says(&run(&["listing", &grow]), 0, known::GROW_LISTING);
    let input = bytes("programs/grow.program");
    assert_says(&run_on(&["listing"], &input), 0, known::GROW_LISTING);
    assert_says(&run_on(&["listing", "-"], &input), 0, known::GROW_LISTING);
    assert_says(&run(&["listing"]), 1, "refused 1 0\n");
}

/// Numbers are signed.
#[test]
fn listing_prints_known_listings() {
    for (file, text) in known::listings() {
        assert_eq!(assert_listed(&file), text);
    }
}

/// The longest code among them, and a file for each refusal.
#[test]
fn listing_prints_what_the_reference_lists() {
    let mut seen = [0; 13];
    for known in known::all() {
        let text = assert_listed(&known.file);
        let number = known.answer.map_or_else(|refusal| refusal.number, |_| 0);
        seen[usize::from(number)] += 1;
        assert_eq!(text.starts_with("code "), number == 0, "{}", known.name);
    }
    assert!(seen.iter().all(|&count| count > 0), "{seen:?}");
}

#[test]
fn listing_prints_random_programs() {
    let mut random = Random::new(190);
    let (mut listed, mut refused) = (0, 0);
    for _ in 0..60 {
        let file = lay_out(&ordered::any_program(&mut random).records());
        assert!(assert_listed(&file).starts_with("code "));
        match assert_listed(&damaged_file(&mut random, &file)).starts_with("code ") {
            true => listed += 1,
            false => refused += 1,
        }
    }
    assert!(listed > 0 && refused > 30, "{listed} and {refused}");
}
