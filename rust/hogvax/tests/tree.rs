//! The tree reader beside the reference implementation.

#[path = "tree/deep.rs"]
mod deep;
#[path = "tree/every_input.rs"]
mod every_input;
#[path = "tree/long.rs"]
mod long;
#[path = "tree/measures.rs"]
mod measures;
#[path = "tree/paths.rs"]
mod paths;
#[path = "tree/random_deep.rs"]
mod random_deep;
#[path = "tree/random_inputs.rs"]
mod random_inputs;

use std::thread;

use hogvax::{first_tree, tree, tree_into, Measures, Refused};
use reference::generate;
use reference::{Random, DEPTH_LIMIT, INPUT_ENDED, LEAF_TAG, NODE_TAG, NOT_A_TAG, TOO_DEEP};

/// Document 01: "Tree T: 02 01 05 00 00 00 01 07 00 00 00."
const T: [u8; 11] = [2, 1, 5, 0, 0, 0, 1, 7, 0, 0, 0];

type Answer = Result<Measures, Refused>;

/// A tree of `tips` tips is read. N5: "An accepted tree's bytes must equal 6
/// times the tips less 1."
fn read(tips: usize, depth: usize) -> Answer {
    let bytes = 6 * tips - 1;
    Ok(Measures { bytes, tips, depth })
}

fn refused(number: u8, position: usize) -> Answer {
    Err(Refused {
        number: number.into(),
        position: position as u64,
    })
}

fn reference_answer(input: &[u8]) -> Answer {
    let measures = reference::tree_measures(input).map(|measures| Measures {
        bytes: measures.bytes,
        tips: measures.tips,
        depth: measures.depth,
    });
    measures.or_else(|refusal| refused(refusal.number, refusal.position))
}

/// An answer as numbers: 0 or the refusal's, and the slots, with one after them. N5:
/// "A refusal of the reader .. gives 0 for both."
fn as_numbers(answer: Answer) -> (u32, [u64; 5]) {
    match answer {
        Ok(Measures { bytes, tips, depth }) => {
            let [bytes, tips, depth] = [bytes, tips, depth].map(|count| count as u64);
            (0, [0, bytes, tips, depth, 77])
        }
        Err(Refused { number, position }) => (number, [position, 0, 0, 0, 77]),
    }
}

/// All calls give this answer.
fn assert_answer(input: &[u8], answer: Answer) {
    assert_eq!(tree(input), answer, "{}", shown(input));
    let mut slots = [77; 5];
    let number = tree_into(input, &mut slots);
    assert_eq!((number, slots), as_numbers(answer), "{}", shown(input));
    let length = answer.map_or(0, |measures| measures.bytes);
    let bytes = first_tree(input);
    assert_eq!(bytes.len(), length, "{}", shown(input));
    assert_eq!(bytes.as_ptr(), input.as_ptr(), "not a part of the input");
}

/// All calls give the reference's answer, which is handed back.
fn assert_like_reference(input: &[u8]) -> Answer {
    let answer = reference_answer(input);
    assert_answer(input, answer);
    assert_eq!(first_tree(input), reference::tree_bytes(input));
    answer
}

/// The first bytes of an input, for a message.
fn shown(input: &[u8]) -> String {
    let start = &input[..input.len().min(64)];
    format!("input of {} bytes: {start:02x?}", input.len())
}

/// Runs on a thread whose stack has no room for 1,024 calls of 32 bytes each, as
/// a recursion needs: the tree reader needs the same stack for every tree.
fn on_a_small_stack(check: fn()) {
    let thread = thread::Builder::new().stack_size(32 << 10).spawn(check);
    thread.unwrap().join().unwrap();
}

/// How often each answer was seen.
#[derive(Debug, Default)]
struct Seen {
    accepted: usize,
    ended: usize,
    not_a_tag: usize,
    too_deep: usize,
}

impl Seen {
    fn count(&mut self, answer: Answer) {
        match answer.map_err(|refused| refused.number as u8) {
            Ok(_) => self.accepted += 1,
            Err(INPUT_ENDED) => self.ended += 1,
            Err(NOT_A_TAG) => self.not_a_tag += 1,
            Err(TOO_DEEP) => self.too_deep += 1,
            Err(number) => panic!("the tree reader has no refusal {number}"),
        }
    }

    fn assert_at_least(&self, each: usize) {
        self.assert_all_but_too_deep(each);
        assert!(self.too_deep >= each, "{self:?}");
    }

    /// For inputs too short to be too deep.
    fn assert_all_but_too_deep(&self, each: usize) {
        let seen = [self.accepted, self.ended, self.not_a_tag];
        assert!(seen.iter().all(|&count| count >= each), "{self:?}");
    }
}

// Cuts

#[test]
fn every_cut_of_tree_t_is_refused_where_it_ends() {
    let positions = [0, 1, 2, 2, 2, 2, 6, 7, 7, 7, 7];
    for (length, position) in positions.into_iter().enumerate() {
        assert_answer(&T[..length], refused(15, position));
    }
    assert_answer(&T, read(2, 1));
}

#[test]
fn every_cut_of_random_trees_is_refused_as_the_reference_does() {
    let mut random = Random::new(14);
    for tips in 1..60 {
        let tree = generate::tree(&mut random, tips);
        let bytes = tree.tokens();
        for length in 0..bytes.len() {
            let answer = assert_like_reference(&bytes[..length]);
            assert_eq!(answer.map_err(|refused| refused.number), Err(15));
        }
        assert_answer(&bytes, read(tips, tree.depth()));
    }
}

#[test]
fn bytes_after_the_tree_are_not_looked_at() {
    for byte in 0..=255 {
        assert_answer(&[&T[..], &[byte; 9]].concat(), read(2, 1));
    }
}

#[test]
fn every_byte_but_1_and_2_is_no_tag() {
    for byte in (0..=255).filter(|byte| ![1, 2].contains(byte)) {
        assert_answer(&[byte], refused(16, 0));
        assert_answer(&[2, 1, 0, 0, 0, 0, byte], refused(16, 6));
    }
}

// The answer as numbers

#[test]
fn an_answer_takes_four_slots() {
    for slots in 0..4 {
        for input in [&T[..], &T[1..], &[], &[3], &[2; 1_025]] {
            let mut answer = [77; 4];
            assert_eq!(tree_into(input, &mut answer[..slots]), 13);
            assert_eq!(answer, [77; 4]);
        }
    }
}

/// N5: "A refusal of the reader .. gives 0 for both."
#[test]
fn an_answer_fills_four_places_and_leaves_the_rest() {
    for length in [4, 5, 100] {
        for (input, number, slots) in [
            (&T[..], 0, [0, 11, 2, 1]),
            (&T[1..], 0, [0, 5, 1, 0]),
            (&T[..8], 15, [7, 0, 0, 0]),
            (&[2, 1, 0, 0, 0, 0, 9], 16, [6, 0, 0, 0]),
            (&[2; 1_025], 20, [1_024, 0, 0, 0]),
        ] {
            let mut answer = vec![u64::MAX; length];
            assert_eq!(tree_into(input, &mut answer), number);
            assert_eq!(answer[..4], slots);
            assert!(answer[4..].iter().all(|&word| word == u64::MAX));
        }
    }
}

#[test]
fn a_refusal_shows_its_number_and_position() {
    assert_eq!(tree(&[]).unwrap_err().to_string(), "refused 15 0");
    let refused = tree(&[NODE_TAG; 2_000]).unwrap_err();
    assert_eq!(refused.to_string(), "refused 20 1024");
}
