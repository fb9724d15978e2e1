//! Worked programs on trees about as deep as calls can be open.

use reference::generate::sums::with_moderate_labels;
use reference::generate::{left_caterpillar, mixed_caterpillar, right_caterpillar};
use reference::machine::known::computed::results;
use reference::machine::known::programs::{FILL, GROW, SUM};
use reference::machine::OPEN_LIMIT;
use reference::{Random, Tree};

use super::cases::worked;
use super::computed::check;
use super::*;

/// "18 a call with 1,024 open (the first frame counts)": a leaf under 1,023
/// nodes is come to by Grow and Sum with 1,024 open. Fill opens one call more.
const DEEPEST: usize = OPEN_LIMIT - 1;

/// The deepest tree that a program goes through.
fn deepest(listing: &str) -> usize {
    match listing {
        FILL => DEEPEST - 1,
        _ => DEEPEST,
    }
}

#[test]
fn the_deepest_trees_are_gone_through() {
    let mut random = Random::new(250);
    let mut lent = Lent::new();
    for make in [left_caterpillar, right_caterpillar, mixed_caterpillar] {
        for depth in [DEEPEST - 2, DEEPEST - 1, DEEPEST] {
            let tree = make(&mut random, depth);
            for result in results(&tree) {
                if depth <= deepest(result.listing) {
                    check(&mut lent, &tree, &result, &[1]);
                }
            }
        }
    }
}

/// 18 at a call, with fuel and room enough; what was written opens the result.
fn refused(lent: &mut Lent, listing: &str, tree: &Tree) -> Gave {
    let all = results(tree);
    let result = all.iter().find(|result| result.listing == listing);
    let bytes = &result.expect("a program").wrote;
    let case = worked(listing, tree.tokens(), u64::MAX, bytes.len());
    let (gave, trace) = lent.answer_traced(&case);
    assert_eq!(gave.number, 18, "{case:?}");
    assert_eq!(trace.open, OPEN_LIMIT, "{case:?}");
    assert!(bytes.starts_with(gave.bytes()), "{case:?}");
    gave
}

#[test]
fn deeper_trees_give_18() {
    let mut random = Random::new(251);
    let mut lent = Lent::new();
    for make in [left_caterpillar, right_caterpillar, mixed_caterpillar] {
        for depth in [DEEPEST + 1, DEEPEST + 2, 2 * DEEPEST, 10_000] {
            let tree = make(&mut random, depth);
            let tree = with_moderate_labels(&mut random, &tree);
            for listing in [GROW, SUM, FILL] {
                let gave = refused(&mut lent, listing, &tree);
                let writes = listing != SUM;
                assert_eq!(gave.written(), if writes { gave.read() } else { 0 });
            }
        }
        let tree = make(&mut random, DEEPEST);
        let _ = refused(&mut lent, FILL, &tree);
    }
}

/// Down to the 1,024th node a program reads so many bytes and performs so many
/// instructions at each of the nodes above, and then so many more.
#[test]
fn the_call_that_is_refused() {
    let mut random = Random::new(252);
    let mut lent = Lent::new();
    let left = left_caterpillar(&mut random, DEEPEST + 1);
    let right = right_caterpillar(&mut random, DEEPEST + 1);
    let left = with_moderate_labels(&mut random, &left);
    let right = with_moderate_labels(&mut random, &right);
    for (listing, tree, each_read, each, last) in [
        (GROW, &left, 1, 3, 2),
        (SUM, &left, 1, 2, 1),
        (GROW, &right, 6, 14, 2),
        (SUM, &right, 6, 9, 1),
    ] {
        let gave = refused(&mut lent, listing, tree);
        let read = DEEPEST * each_read + 1;
        let units = (DEEPEST * each + last) as u64;
        assert_eq!((gave.read(), gave.position()), (read, read as u64));
        assert_eq!(gave.units(), units, "{gave:?}");
    }
}
