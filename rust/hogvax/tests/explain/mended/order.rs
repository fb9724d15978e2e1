//! The pending trees that are reported: refusals 11 and 12.

use super::*;

/// The record may take the tree that is reported to be the first of the pending
/// ones.
#[test]
fn the_first_pending_tree_told_can_be_taken() {
    let mut tried = Tried::new();
    each_refused(11, |records, explanation| {
        if !is_out_of_turn(explanation) {
            return;
        }
        let place = explanation.record;
        let pending = tree_names(told(explanation, "pending: ").unwrap());
        let asked = tree_names(told(explanation, "asked for: ").unwrap());
        assert_eq!(asked, [usize::from(records[place].a)]);
        assert_ne!(pending.first(), asked.first());
        match pending.first() {
            Some(&first) if first < 256 => {
                let mended = with_name(records, place, first);
                let still = still_refused(&mended, 11, place);
                assert!(!still.is_some_and(|explanation| is_out_of_turn(&explanation)));
                tried.once("first");
            }
            Some(_) => tried.once("above 255"),
            None => tried.once("none"),
        }
        assert_told_where_the_tree_is(records, explanation, &pending, asked[0]);
        tried.once(match pending.contains(&asked[0]) {
            true => "pending",
            false => "taken",
        });
    });
    tried.assert_often(&["first", "none", "pending", "taken"], 50);
    tried.assert_often(&["above 255"], 2);
}

/// A tree that is pending further back has others before it; one that is not
/// pending any more was taken, by the records reported.
fn assert_told_where_the_tree_is(
    records: &[Record],
    explanation: &Explanation,
    pending: &[usize],
    asked: usize,
) {
    let others = &explanation.details[2..];
    assert!(!others.is_empty());
    match pending.iter().position(|&tree| tree == asked) {
        Some(place) => {
            let [only] = others else {
                panic!("{explanation:?}");
            };
            let verb = if place == 1 {
                " comes first"
            } else {
                " come first"
            };
            let before = only.text.strip_suffix(verb).unwrap();
            assert_eq!(tree_names(&before.replace(" and ", ", ")), pending[..place]);
        }
        None => {
            for detail in others.iter().take(16) {
                let by = records[detail.record.unwrap()];
                let start = format!("tree {asked} was taken by '");
                assert!(detail.text.starts_with(&start), "{explanation:?}");
                assert!([kind::CASE, kind::CALL].contains(&by.kind));
                assert_eq!(usize::from(by.a), asked);
            }
        }
    }
}

/// One part leaves what the other leaves, and more before it.
#[test]
fn different_lists_are_told_of_two_parts() {
    let mut tried = Tried::new();
    each_refused(11, |records, explanation| {
        let place = explanation.record;
        let (name, parts) = match records[place].kind {
            kind::CASE => ("Case", ["leaf part", "node part"]),
            _ => ("IfZero", ["zero part", "other part"]),
        };
        let lists = parts.map(|part| told(explanation, &format!("after the {part}: ")));
        let [Some(one), Some(two)] = lists else {
            return;
        };
        let (one, two) = (tree_names(one), tree_names(two));
        assert_ne!(one, two);
        assert!(one.ends_with(&two) || two.ends_with(&one));
        let [one, two] = &explanation.details[..] else {
            panic!("{explanation:?}");
        };
        assert!(one.record < two.record && Some(place) < one.record);
        tried.once(name);
    });
    tried.assert_often(&["Case", "IfZero"], 20);
}

#[test]
fn sixteen_pending_trees_are_told() {
    let mut tried = Tried::new();
    each_refused(12, |records, explanation| {
        let pending = tree_names(told(explanation, "pending: ").unwrap());
        assert_eq!(pending.len(), 16);
        let case = records[explanation.record];
        assert_eq!((case.kind, usize::from(case.a)), (kind::CASE, pending[0]));
        tried.once("full");
    });
    tried.assert_often(&["full"], 20);
}
