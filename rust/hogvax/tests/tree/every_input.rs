//! All inputs of a kind: short ones, and every shape of few tips with every cut
//! and every change of a tag.

use super::paths::{tag_offsets, LEAF};
use super::*;

/// Every input of this many bytes, each of them one of `bytes`.
fn every_input(bytes: &[u8], length: u32, check: &mut impl FnMut(&[u8])) {
    let mut input = vec![0; length as usize];
    for mut number in 0..bytes.len().pow(length) {
        for byte in &mut input {
            *byte = bytes[number % bytes.len()];
            number /= bytes.len();
        }
        check(&input);
    }
}

#[test]
fn every_short_input_is_answered_as_the_reference_does() {
    let mut seen = Seen::default();
    let mut check = |input: &[u8]| seen.count(assert_like_reference(input));
    for length in 0..=9 {
        every_input(&[0, 1, 2, 3], length, &mut check);
    }
    for length in 0..=19 {
        every_input(&[1, 2], length, &mut check);
    }
    seen.assert_all_but_too_deep(1_000);
}

/// The tokens of every shape of `tips` tips, with the same leaf at each, and its
/// depth.
pub fn every_shape(tips: usize, leaf: [u8; 5]) -> Vec<(Vec<u8>, usize)> {
    if tips == 1 {
        return vec![(leaf.to_vec(), 0)];
    }
    let mut shapes = Vec::new();
    for left_tips in 1..tips {
        for (left, left_depth) in every_shape(left_tips, leaf) {
            for (right, right_depth) in every_shape(tips - left_tips, leaf) {
                let tokens = [&[NODE_TAG], &left[..], &right[..]].concat();
                shapes.push((tokens, 1 + left_depth.max(right_depth)));
            }
        }
    }
    shapes
}

#[test]
fn every_shape_of_up_to_nine_tips_and_every_cut_of_it() {
    let mut trees = 0;
    for tips in 1..=9 {
        for (bytes, depth) in every_shape(tips, LEAF) {
            trees += 1;
            assert_answer(&bytes, read(tips, depth));
            for length in 0..bytes.len() {
                assert_like_reference(&bytes[..length]).unwrap_err();
            }
        }
    }
    assert_eq!(trees, 1 + 1 + 2 + 5 + 14 + 42 + 132 + 429 + 1_430);
}

/// In place of a node's tag a leaf's takes four bytes for its label; in place of
/// a leaf's tag a node's makes the label tags. So the labels are of all kinds.
#[test]
fn every_shape_of_up_to_nine_tips_with_every_tag_replaced_by_the_other() {
    let mut seen = Seen::default();
    for label in [0x0102_0102, 0x0201_0201, 0x0101_0101, 0x0202_0202, 0] {
        let [a, b, c, d] = i32::to_le_bytes(label);
        for (bytes, _) in (1..=9).flat_map(|tips| every_shape(tips, [1, a, b, c, d])) {
            for offset in tag_offsets(&bytes) {
                let mut changed = bytes.clone();
                changed[offset] = LEAF_TAG + NODE_TAG - bytes[offset];
                seen.count(assert_like_reference(&changed));
            }
        }
    }
    seen.assert_all_but_too_deep(1_000);
}

#[test]
fn every_shape_of_up_to_nine_tips_with_every_tag_replaced_by_no_tag() {
    for (mut bytes, _) in (1..=9).flat_map(|tips| every_shape(tips, LEAF)) {
        for offset in tag_offsets(&bytes) {
            let tag = bytes[offset];
            for no_tag in [0, 3, 128 + tag, 255] {
                bytes[offset] = no_tag;
                assert_answer(&bytes, refused(16, offset));
                assert_like_reference(&bytes).unwrap_err();
            }
            bytes[offset] = tag;
        }
    }
}
