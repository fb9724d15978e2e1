use std::collections::BTreeSet;

use super::*;
use crate::random::Random;

mod fuel;
mod instructions;
mod marks;
mod space;
mod trees;

/// The answers of both ways to run, which are one.
fn ran(case: &TestCase) -> (Ran, Trace, Vec<u8>) {
    let (ran, trace, bytes) = case.perform_traced();
    assert_eq!(case.perform(), (ran, bytes.clone()), "{case:?}");
    (ran, trace, bytes)
}

#[test]
fn known_codes() {
    for known in known::all() {
        let (ran, trace, bytes) = ran(&known.case);
        assert_eq!(ran, known.answer, "{}", known.name);
        assert_eq!(trace.stop, known.stop, "{}", known.name);
        assert_eq!(bytes, known.bytes, "{}", known.name);
    }
}

/// Runs with sums at the ends of the range, and how many of them each has.
#[test]
fn known_codes_with_sums_at_the_ends() {
    let sums = [
        ("add up to the greatest", (0, 1)),
        ("add 0 to the greatest", (0, 1)),
        ("add down to the least", (1, 0)),
        ("add two halves", (1, 0)),
        ("add both ends", (0, 0)),
        ("add past the greatest", (0, 0)),
        ("the second of two adds", (0, 1)),
        ("Sum to the least", (1, 0)),
        ("Grow next to the greatest", (0, 1)),
    ];
    for (name, (least, greatest)) in sums {
        let mut codes = known::all().into_iter();
        let known = codes.find(|known| known.name == name).expect(name);
        let (_, trace, _) = ran(&known.case);
        assert_eq!(trace.end_sums, EndSums { least, greatest }, "{name}");
    }
}

#[test]
fn known_codes_have_names_of_their_own() {
    let mut names = BTreeSet::new();
    for known in known::all() {
        assert!(names.insert(known.name), "{}", known.name);
    }
}

/// The address, the words and the calls open where a run stops.
#[test]
fn known_codes_where_they_stop() {
    let stops = [
        ("Grow on T", (12, 0, 1)),
        ("Grow on T, fuel 0", (0, 0, 1)),
        ("Grow on T, output of 10", (6, 2, 2)),
        ("Call 0 on 0, fuel 1,024", (0, 0, 1_024)),
        ("return keeps the top", (3, 3, 1)),
        ("jump past the end", (3, 0, 1)),
        ("call to the end", (2, 0, 2)),
        ("return to the end", (3, 0, 1)),
        ("jump to the last of all", (65_535, 0, 1)),
        ("call across the base", (4, 2, 2)),
        ("two frames below", (3, 1, 3)),
        ("16,384 words", (3, 16_384, 1)),
        ("push in a call with 255", (5, 16_384, 2)),
        ("1,024 frames of 16 words", (18, 17, 1)),
        ("and one word more", (19, 16_384, 1_024)),
        ("frames of 17 words", (13, 16_384, 964)),
        ("one call with a word", (2, 1, 1_024)),
        ("Sum", (7, 2, 1)),
        ("another word below", (3, 3, 1)),
        ("in a call, arguments", (4, 2, 2)),
        ("19 before 21, one word", (4, 2, 2)),
    ];
    for (name, stop) in stops {
        let mut codes = known::all().into_iter();
        let known = codes.find(|known| known.name == name).expect(name);
        let (_, trace, _) = ran(&known.case);
        assert_eq!((trace.address, trace.words, trace.open), stop, "{name}");
    }
}
