//! The plain readers are right, so that a comparison with them means something.

use reference::generate::{self, damaged, mixed_caterpillar, tag_like_bytes, tree};
use reference::{Random, Tree, DEPTH_LIMIT};

use super::*;

/// Both plain readers give the reference's answer, which is handed back.
fn assert_like_reference(input: &[u8]) -> Answer {
    let measures = reference::tree_measures(input).map(|measures| Measures {
        bytes: measures.bytes,
        tips: measures.tips,
        depth: measures.depth,
    });
    let answer = measures.map_err(|refusal| Refused {
        number: refusal.number.into(),
        position: refusal.position as u64,
    });
    assert_eq!(plain::by_recursion(input), answer);
    assert_eq!(plain::by_loop(input), answer);
    answer
}

#[test]
fn they_answer_as_the_reference_does() {
    let mut random = Random::new(2);
    let mut seen = [0; 21];
    for _ in 0..1_000 {
        let tips = 1 + random.below(20);
        let depth = DEPTH_LIMIT - 2 + random.below(4);
        for whole in [
            tree(&mut random, tips).tokens(),
            mixed_caterpillar(&mut random, depth).tokens(),
            tag_like_bytes(&mut random, tips),
        ] {
            for input in [damaged(&mut random, &whole), whole] {
                let answer = assert_like_reference(&input);
                seen[answer.map_or_else(|refused| refused.number as usize, |_| 0)] += 1;
            }
        }
    }
    for number in [0, 15, 16, 20] {
        assert!(seen[number] > 100, "{number}: {seen:?}");
    }
}

#[test]
fn they_stop_at_every_cut() {
    let bytes = tree(&mut Random::new(3), 100).tokens();
    for length in 0..bytes.len() {
        assert_like_reference(&bytes[..length]).unwrap_err();
    }
    let measures = assert_like_reference(&bytes).unwrap();
    assert_eq!((measures.bytes, measures.tips), (bytes.len(), 100));
}

/// The deepest leaf is the first, the last, or between them; bytes after the tree
/// change nothing.
#[test]
fn they_measure_every_shape_of_up_to_nine_tips() {
    for tips in 1..=9 {
        for bytes in generate::shapes(tips).iter().map(Tree::tokens) {
            let alone = assert_like_reference(&bytes).unwrap();
            assert_eq!((alone.bytes, alone.tips), (6 * tips - 1, tips));
            let longer = [&bytes[..], &[2, 1, 0]].concat();
            assert_eq!(assert_like_reference(&longer), Ok(alone));
        }
    }
}
