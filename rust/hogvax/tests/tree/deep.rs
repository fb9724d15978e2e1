//! Depth: a node tag under 1,024 others is refused, and no tree before it; a
//! leaf under 1,024 nodes is read; nodes that are finished do not count.

use super::paths::*;
use super::*;

fn node(left: &[u8], right: &[u8]) -> Vec<u8> {
    [&[NODE_TAG], left, right].concat()
}

/// Read whole, as a tree of that depth.
fn assert_read(bytes: &[u8], depth: usize) {
    let tips = (bytes.len() + 1) / 6;
    assert_answer(bytes, read(tips, depth));
    assert_like_reference(bytes).unwrap();
}

/// Refused as too deep at that offset.
fn assert_too_deep(bytes: &[u8], offset: usize) {
    assert_answer(bytes, refused(20, offset));
    assert_like_reference(bytes).unwrap_err();
}

#[test]
fn caterpillars_about_the_limit() {
    on_a_small_stack(|| {
        for depth in [1_022, 1_023, 1_024] {
            for path in paths(depth) {
                let bytes = caterpillar(&path);
                assert_eq!(bytes.len(), 6 * (depth + 1) - 1);
                assert_read(&bytes, depth);
            }
        }
        for path in [paths(1_025), paths(1_026), paths(5_000)].concat() {
            assert_too_deep(&caterpillar(&path), end_offset(&path[..1_024]));
        }
    });
}

#[test]
fn random_caterpillars_about_the_limit() {
    on_a_small_stack(|| {
        let mut random = Random::new(15);
        for _ in 0..500 {
            let path = random_path(&mut random, 1_025);
            assert_read(&caterpillar(&path[..1_023]), 1_023);
            assert_read(&caterpillar(&path[..1_024]), 1_024);
            assert_too_deep(&caterpillar(&path), end_offset(&path[..1_024]));
        }
    });
}

/// On every path the limit stands at the same node, whatever comes there.
#[test]
fn what_stands_under_1_024_nodes() {
    on_a_small_stack(|| {
        for path in paths(1_024) {
            let down = way_down(&path);
            let offset = down.len();
            let with = |bytes: &[u8]| [&down[..], bytes].concat();
            assert_answer(&down, refused(15, offset));
            assert_too_deep(&with(&[2]), offset);
            assert_too_deep(&with(&[2, 1, 0, 0, 0, 0, 1, 0, 0, 0, 0]), offset);
            for no_tag in [0, 3, 255] {
                assert_answer(&with(&[no_tag; 9]), refused(16, offset));
            }
            for length in 1..5 {
                assert_answer(&with(&LEAF[..length]), refused(15, offset + 1));
            }
            let last = offset + 5;
            match path.contains(&Left) {
                true => assert_answer(&with(&LEAF), refused(15, last)),
                false => {
                    assert_eq!(last, 6 * 1_025 - 1);
                    assert_answer(&with(&LEAF), read(1_025, 1_024));
                }
            }
        }
    });
}

/// The last node of the path may have a leaf, and no node, for its right part.
#[test]
fn the_second_leaf_under_1_024_nodes() {
    on_a_small_stack(|| {
        for path in paths(1_023) {
            let down = [way_down(&path), vec![NODE_TAG], LEAF.to_vec()].concat();
            let offset = down.len();
            assert_answer(&down, refused(15, offset));
            assert_too_deep(&[&down[..], &[2, 2, 2]].concat(), offset);
            assert_answer(&[&down[..], &[7]].concat(), refused(16, offset));
            assert_answer(&[&down[..], &LEAF[..4]].concat(), refused(15, offset + 1));
            let whole = tree_along(&path, &node(&LEAF, &LEAF), |_, _| LEAF.to_vec());
            assert_read(&whole, 1_024);
        }
    });
}

#[test]
fn two_deep_parts_side_by_side() {
    on_a_small_stack(|| {
        for left in paths(1_024) {
            let (read, deep) = (caterpillar(&left[..1_023]), caterpillar(&left));
            let left_offset = 1 + end_offset(&left[..1_023]);
            for right in paths(1_024) {
                let right_offset = 1 + read.len() + end_offset(&right[..1_023]);
                let (right_read, right_deep) = (caterpillar(&right[..1_023]), caterpillar(&right));
                assert_read(&node(&read, &right_read), 1_024);
                assert_too_deep(&node(&read, &right_deep), right_offset);
                assert_too_deep(&node(&deep, &right_read), left_offset);
                assert_too_deep(&node(&deep, &right_deep), left_offset);
            }
        }
    });
}

/// Beside every node of a path that goes down to the limit stands a tree that
/// goes down to it, too: half a million nodes, of which never more than 1,024 are
/// open.
#[test]
fn down_to_the_limit_beside_every_node() {
    on_a_small_stack(|| {
        for path in paths(1_024) {
            let bytes = tree_along(&path, &LEAF, |above, _| {
                let length = 1_023 - above;
                caterpillar(&paths(length)[above % 12])
            });
            assert_eq!(bytes.len(), 6 * (1_025 + 1_023 * 1_024 / 2) - 1);
            assert_read(&bytes, 1_024);
        }
    });
}

/// Of all these trees one is one node deeper.
#[test]
fn beyond_the_limit_beside_one_node() {
    on_a_small_stack(|| {
        for (number, path) in paths(1_024).iter().enumerate() {
            for deeper in [0, 1, 2, 300 + number, 1_000 + number, 1_022, 1_023] {
                let mut offset = 0;
                let bytes = tree_along(path, &LEAF, |above, at| {
                    let length = 1_023 - above;
                    if above != deeper {
                        return LEAF.to_vec();
                    }
                    let side = &paths(length + 1)[(above + number) % 12];
                    offset = at + end_offset(&side[..length]);
                    caterpillar(side)
                });
                assert_too_deep(&bytes, offset);
            }
        }
    });
}

/// Whole trees beside every node of the path that are finished before it goes on
/// to the right, or begun after all below it on the left.
#[test]
fn finished_nodes_are_not_open() {
    on_a_small_stack(|| {
        for depth in [1, 2, 5] {
            for path in paths(1_024) {
                let beside = |above: usize| balanced(depth.min(1_023_usize.saturating_sub(above)));
                assert_read(&tree_along(&path, &LEAF, |above, _| beside(above)), 1_024);
                let mut after_node = 0;
                let longer = [&path[..], &[Right]].concat();
                let bytes = tree_along(&longer, &LEAF, |above, at| {
                    if above == 1_024 {
                        after_node = at;
                    }
                    beside(above)
                });
                assert_too_deep(&bytes, after_node - 1);
            }
        }
    });
}

/// The same way down to the limit 256 times, the last time one node too far.
#[test]
fn down_to_the_limit_again_and_again() {
    on_a_small_stack(|| {
        for path in paths(1_016) {
            let bytes = under_a_balanced_top(8, |_| caterpillar(&path));
            assert_read(&bytes, 1_024);
            let last = bytes.len() - caterpillar(&path).len();
            let longer = [&path[..], &[Left]].concat();
            let bytes = under_a_balanced_top(8, |number| match number {
                255 => caterpillar(&longer),
                _ => caterpillar(&path),
            });
            assert_too_deep(&bytes, last + end_offset(&path));
        }
    });
}

#[test]
fn ten_million_node_tags_are_too_deep() {
    on_a_small_stack(|| assert_answer(&vec![NODE_TAG; 10_000_000], refused(20, 1_024)));
}

#[test]
fn too_deep_comes_before_what_follows() {
    let mut bytes = vec![NODE_TAG; 1_025];
    assert_answer(&bytes, refused(20, 1_024));
    bytes.push(3);
    assert_answer(&bytes, refused(20, 1_024));
    bytes[1_024] = 3;
    assert_answer(&bytes, refused(16, 1_024));
    bytes.truncate(1_024);
    assert_answer(&bytes, refused(15, 1_024));
}
