//! "13 code, file or work buffer too short": each buffer one short, and just
//! long enough.

use crate::machine::{Ran, RETURN_WORDS, VALUE_WORDS};
use crate::order::known::text::program;
use crate::program::{lay_out, Program};

use super::{refused, with_answer, Known, RunCase};

/// Document 01's T, and what Grow makes of it.
const T: [u8; 11] = [2, 1, 5, 0, 0, 0, 1, 7, 0, 0, 0];
const GROWN: [u8; 11] = [2, 1, 6, 0, 0, 0, 1, 8, 0, 0, 0];

/// The bytes of Grow's code.
const CODE: usize = 8 * 13;

fn grow() -> Program {
    program("tree: Case 0, Leaf, Add, Var 0, Const 1, Node, Call 0 on 1, Call 0 on 2")
}

/// Grow on T with so much code, value words and return words.
fn grow_on_t([code, value_words, return_words]: [usize; 3]) -> RunCase {
    let file = lay_out(&grow().records());
    RunCase {
        value_words,
        return_words,
        ..RunCase::new(&file, &T, 25, 11, code)
    }
}

/// "The runs test 13 before tree or fuel."
pub fn runs() -> Vec<Known> {
    let too_short = [
        [CODE - 1, VALUE_WORDS, RETURN_WORDS],
        [0, VALUE_WORDS, RETURN_WORDS],
        [CODE, VALUE_WORDS - 1, RETURN_WORDS],
        [CODE, VALUE_WORDS, RETURN_WORDS - 1],
        [CODE, 0, 0],
        [usize::pow(2, 16), VALUE_WORDS - 1, RETURN_WORDS],
        [0, 0, 0],
    ];
    let enough = [
        [CODE, VALUE_WORDS, RETURN_WORDS],
        [CODE + 1, VALUE_WORDS, RETURN_WORDS],
        [CODE, VALUE_WORDS + 1, RETURN_WORDS + 1],
        [usize::pow(2, 16), VALUE_WORDS, RETURN_WORDS],
    ];
    let mut runs: Vec<Known> = too_short
        .into_iter()
        .map(|space| short(space, 25))
        .collect();
    runs.extend(too_short.map(|space| short(space, 0)));
    runs.extend(too_short.map(without_input));
    runs.extend(enough.map(long_enough));
    runs
}

fn short(space: [usize; 3], fuel: u64) -> Known {
    let case = RunCase {
        fuel,
        ..grow_on_t(space)
    };
    let name = format!("13, fuel {fuel}, {space:?}");
    with_answer(&name, case, &grow(), refused(13, 0), &[])
}

fn without_input(space: [usize; 3]) -> Known {
    let case = RunCase {
        input: vec![],
        ..grow_on_t(space)
    };
    let name = format!("13, no input, {space:?}");
    with_answer(&name, case, &grow(), refused(13, 0), &[])
}

fn long_enough(space: [usize; 3]) -> Known {
    let answer = Ran {
        refusal: None,
        units: 25,
        read: 11,
        written: 11,
        number: 0,
    };
    let name = format!("no 13, {space:?}");
    with_answer(&name, grow_on_t(space), &grow(), answer, &GROWN)
}
