//! Inputs that are no trees: "19 never follows translated code."

use std::collections::BTreeMap;

use super::evaluated::Subject;
use crate::generate::evaluated::{any_program, small_tree};
use crate::generate::{damaged, tag_like_bytes};
use crate::machine::TestCase;
use crate::random::Random;
use crate::tree::tree_refusal;

/// Damaged tokens or any bytes.
fn any_input(random: &mut Random, tokens: &[u8]) -> Vec<u8> {
    match random.below(3) {
        0 => {
            let length = random.below(30);
            tag_like_bytes(random, length)
        }
        1 => tokens[..random.below(tokens.len())].to_vec(),
        _ => damaged(random, tokens),
    }
}

/// A run ends with 14 to 18, with 21 or without refusal. Where it is 15 or 16,
/// the tree reader refuses with the same number at the same byte.
#[test]
fn any_input_on_random_programs() {
    let mut random = Random::new(403);
    let mut seen = BTreeMap::new();
    for _ in 0..1_500 {
        let program = any_program(&mut random);
        let tree = small_tree(&mut random);
        let subject = Subject::new(program, tree);
        let case = TestCase {
            input: any_input(&mut random, &subject.tokens),
            fuel: random.pick(&[10, 100, 1_000, 20_000]),
            output: random.pick(&[0, 3, 30, 10_000]),
            code: subject.code.clone(),
        };
        let (ran, _) = case.perform();
        let number = ran.refusal.map(|refusal| refusal.number);
        assert!(matches!(number, None | Some(14..=18 | 21)), "{case:?}");
        if let Some(15 | 16) = number {
            assert_eq!(ran.refusal, tree_refusal(&case.input), "{case:?}");
        }
        if number.is_none() {
            assert_eq!(tree_refusal(&case.input), None, "{case:?}");
        }
        *seen.entry(number).or_insert(0) += 1;
    }
    println!("{seen:?}");
    assert_eq!(seen.len(), 7, "{seen:?}");
    assert!(seen.values().all(|&count| count >= 30), "{seen:?}");
}
