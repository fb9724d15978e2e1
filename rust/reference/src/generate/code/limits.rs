//! Codes that fill the stack and open calls up to the limits.

use crate::machine::mnemonic::{add, call, drop_word, get, jump, leaf_tag};
use crate::machine::mnemonic::{push, read_number, ret, slide, write_number};
use crate::machine::{Instruction, TestCase};
use crate::machine::{OPEN_LIMIT, VALUE_WORDS};
use crate::random::Random;

use super::draft::Draft;
use super::inputs::{input, stray};
use super::instructions::any_instruction;

/// 16,383 or 16,384 words, then instructions most of which push; or a loop that
/// pushes without end.
pub fn full_stack(random: &mut Random) -> TestCase {
    let mut draft = Draft::begun(random);
    if random.below(8) == 0 {
        draft.words(random, 1);
        push_for_ever(random, &mut draft);
    } else {
        let words = VALUE_WORDS - random.below(2);
        draft.fill_to(random, words);
        for _ in 0..1 + random.below(5) {
            let next = at_the_limit(random, &draft);
            draft.put(next);
        }
    }
    draft.strays(random);
    let (left, free) = (stray(random), random.below(8));
    draft.case(random, &left, free)
}

/// An instruction that pushes, or shows a word, or could be taken to push.
fn at_the_limit(random: &mut Random, draft: &Draft) -> Instruction {
    match random.below(8) {
        0 => write_number(),
        1 => ret(1),
        2 => call(
            draft.here() + 1,
            random.below(draft.above.min(255) + 1) as u8,
        ),
        3 => random.pick(&[add(), slide(), drop_word(), leaf_tag()]),
        _ => any_push(random, draft.above),
    }
}

/// Push, get or read number, with so many words above the base, at least 1.
fn any_push(random: &mut Random, above: usize) -> Instruction {
    match random.below(3) {
        0 => push(random.number()),
        1 => get(random.below(above) as u16),
        _ => read_number(),
    }
}

fn push_for_ever(random: &mut Random, draft: &mut Draft) {
    let start = draft.here();
    for _ in 0..1 + random.below(8) {
        let next = random.pick(&[push(1), get(0)]);
        draft.put(next);
    }
    draft.put(jump(start));
}

/// 1,022 to 1,024 open calls, then a call with or without enough words; or a
/// call of itself without end.
pub fn deep_calls(random: &mut Random) -> TestCase {
    let mut draft = Draft::begun(random);
    if random.below(8) == 0 {
        call_for_ever(random, &mut draft);
    } else {
        let open = OPEN_LIMIT - random.below(3);
        draft.open_to(random, open);
        let last = one_more(random, &draft);
        draft.put(last);
    }
    draft.strays(random);
    let (left, free) = (input(random), random.below(8));
    draft.case(random, &left, free)
}

/// A call with about as many arguments as there are words above the base; it
/// is called again, or what stands next, or anything.
fn one_more(random: &mut Random, draft: &Draft) -> Instruction {
    let here = draft.here();
    let arguments = match random.below(4) {
        0 => 0,
        1 => draft.above + 1 + random.below(3),
        2 => draft.above,
        _ => random.below(draft.above + 1),
    };
    let entry = match random.below(4) {
        0 => here,
        1 | 2 => here + 1,
        _ => any_instruction(random, draft.code.len()).operand,
    };
    call(entry, arguments as u8)
}

/// A function that pushes some words and calls itself; with 17 words a frame
/// the stack is full before 1,024 are open.
fn call_for_ever(random: &mut Random, draft: &mut Draft) {
    let start = draft.here();
    let each = random.pick(&[0, 1, 2, 15, 16, 17]);
    for _ in 0..each {
        draft.put(push(random.number()));
    }
    draft.put(call(start, random.below(each + 1) as u8));
}
