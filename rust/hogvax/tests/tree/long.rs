//! Trees of a hundred megabytes.

use super::paths::*;
use super::*;

/// The tree is read whole, as one of this depth, and refused where it is damaged at
/// its end, which is a leaf under as many nodes as this.
fn assert_read_to_the_end(mut bytes: Vec<u8>, depth: usize, above: usize) {
    let length = bytes.len();
    let last = length - LEAF.len();
    assert!((99_000_000..102_000_000).contains(&length), "{length}");
    let whole = read((length + 1) / 6, depth);
    assert_eq!(reference_answer(&bytes), whole);
    assert_answer(&bytes, whole);
    assert_eq!(tree(&bytes[..length - 1]), refused(15, last + 1));
    bytes[last..].copy_from_slice(&[0, 2, 2, 2, 2]);
    assert_eq!(tree(&bytes), refused(16, last));
    bytes[last] = NODE_TAG;
    let answer = match above {
        DEPTH_LIMIT => refused(20, last),
        _ => refused(15, length),
    };
    assert_eq!(tree(&bytes), answer);
    assert_eq!(first_tree(&bytes), []);
}

#[test]
fn a_hundred_megabytes() {
    on_a_small_stack(|| assert_read_to_the_end(balanced(24), 24, 24));
}

/// 16,384 caterpillars, each down to the limit, the last straight to the right.
#[test]
fn a_hundred_megabytes_down_to_the_limit_again_and_again() {
    on_a_small_stack(|| {
        let mut all = paths(1_010).map(|path| caterpillar(&path));
        all.swap(1, 16_383 % 12);
        let bytes = under_a_balanced_top(14, |number| all[number % 12].clone());
        assert_read_to_the_end(bytes, 1_024, 1_024);
    });
}

/// A path of 1,010 nodes to the right. The 16,384 tips of each left part are
/// finished before it goes on.
#[test]
fn a_hundred_megabytes_of_finished_parts_along_a_path() {
    on_a_small_stack(|| {
        let part = balanced(14);
        let bytes = tree_along(&[Right; 1_010], &part, |_, _| part.clone());
        assert_read_to_the_end(bytes, 1_024, 1_024);
    });
}

/// The two deepest leaves stand in the middle, far from the first and the last.
#[test]
fn a_hundred_megabytes_with_the_deepest_leaves_in_the_middle() {
    on_a_small_stack(|| {
        let deeper = caterpillar(&paths(300)[4]);
        let bytes = under_a_balanced_top(10, |number| match number {
            512 => [vec![NODE_TAG], balanced(13), deeper.clone()].concat(),
            _ => balanced(14),
        });
        assert_read_to_the_end(bytes, 10 + 1 + 300, 24);
    });
}
