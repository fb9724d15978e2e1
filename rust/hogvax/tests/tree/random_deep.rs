//! Inputs made at random about as deep as a tree may be.

use super::paths::*;
use super::random_inputs::{cut, damaged};
use super::*;

fn leaf(random: &mut Random) -> Vec<u8> {
    generate::tree(random, 1).tokens()
}

/// A tree to stand under so many nodes: a leaf mostly, else a small tree or a
/// caterpillar about as deep as may be.
fn part(random: &mut Random, above: usize) -> Vec<u8> {
    match random.below(256) {
        0 => {
            let longest = (DEPTH_LIMIT + 1).saturating_sub(above);
            let length = longest.saturating_sub(random.below(6));
            caterpillar(&random_path(random, length))
        }
        1..=40 => {
            let tips = 1 + random.below(6);
            generate::tree(random, tips).tokens()
        }
        _ => leaf(random),
    }
}

/// A path about as long as may be, with such trees beside it.
fn deep_tree(random: &mut Random) -> Vec<u8> {
    let length = DEPTH_LIMIT - 4 + random.below(6);
    let path = random_path(random, length);
    let end = leaf(random);
    tree_along(&path, &end, |above, _| part(random, above + 1))
}

/// One tag replaced, or one node more above a tree.
fn tag_changed(random: &mut Random, mut bytes: Vec<u8>) -> Vec<u8> {
    let offset = random.pick(&tag_offsets(&bytes));
    match random.below(4) {
        0 => bytes[offset] = LEAF_TAG + NODE_TAG - bytes[offset],
        1 => bytes[offset] = random.pick(&[0, 3, 255]),
        _ => {
            let left = [vec![NODE_TAG], leaf(random)].concat();
            bytes.splice(offset..offset, left);
        }
    }
    bytes
}

/// The most nodes above a leaf of these bytes, up to the end of their tree or up
/// to what is not whole.
fn deepest_leaf(bytes: &[u8]) -> usize {
    let (mut at, mut deepest) = (0, 0);
    let mut pending = vec![0];
    while let (Some(above), Some(tag)) = (pending.pop(), bytes.get(at)) {
        if *tag == NODE_TAG {
            pending.extend([above + 1, above + 1]);
            at += 1;
        } else {
            deepest = deepest.max(above);
            at += LEAF.len();
        }
    }
    deepest
}

/// What was seen near the limit.
#[derive(Debug, Default)]
struct Near {
    answers: Seen,
    /// Trees read with a leaf under 1,024 nodes.
    read_at_limit: usize,
    /// Trees refused as too deep after a leaf under 1,024 nodes.
    too_deep_after: usize,
    /// Inputs refused as too short or for no tag after a leaf under 1,024 nodes.
    stopped_after: usize,
}

impl Near {
    fn count(&mut self, input: &[u8]) {
        let answer = assert_like_reference(input);
        self.answers.count(answer);
        let end = match answer {
            Ok(measures) => measures.bytes,
            Err(refused) => refused.position as usize,
        };
        if deepest_leaf(&input[..end]) == DEPTH_LIMIT {
            match answer.map_err(|refused| refused.number as u8) {
                Ok(_) => self.read_at_limit += 1,
                Err(TOO_DEEP) => self.too_deep_after += 1,
                Err(_) => self.stopped_after += 1,
            }
        }
    }

    fn assert_at_least(&self, each: usize) {
        self.answers.assert_at_least(each);
        let seen = [self.read_at_limit, self.too_deep_after, self.stopped_after];
        assert!(seen.iter().all(|&count| count >= each), "{self:?}");
    }
}

#[test]
fn random_inputs_near_the_limit_are_answered_as_the_reference_does() {
    on_a_small_stack(|| {
        let mut random = Random::new(12);
        let mut near = Near::default();
        for _ in 0..6_000 {
            let whole = deep_tree(&mut random);
            near.count(&whole);
            near.count(&cut(&mut random, whole.clone()));
            near.count(&tag_changed(&mut random, whole.clone()));
            near.count(&damaged(&mut random, whole));
        }
        near.assert_at_least(300);
    });
}

/// Damage alone makes a tree too deep: the whole one is read.
#[test]
fn damage_to_a_tree_of_greatest_depth_is_found() {
    on_a_small_stack(|| {
        let mut random = Random::new(13);
        let mut near = Near::default();
        for _ in 0..6_000 {
            let whole = caterpillar(&random_path(&mut random, DEPTH_LIMIT));
            assert_answer(&whole, read(DEPTH_LIMIT + 1, DEPTH_LIMIT));
            near.count(&tag_changed(&mut random, whole.clone()));
            near.count(&damaged(&mut random, whole));
        }
        near.assert_at_least(100);
    });
}
