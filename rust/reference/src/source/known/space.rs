//! "13 code, file or work buffer too short": each part of the work space one
//! short, and just long enough.

use crate::machine::{RETURN_WORDS, VALUE_WORDS};
use crate::order::known::text::program;

use super::{ended, file, refused, with_answer, Known, SourceCase};

/// Document 01's T, and what Grow makes of it.
const T: [u8; 11] = [2, 1, 5, 0, 0, 0, 1, 7, 0, 0, 0];
const GROWN: [u8; 11] = [2, 1, 6, 0, 0, 0, 1, 8, 0, 0, 0];

const TOO_SHORT: [[usize; 2]; 6] = [
    [VALUE_WORDS - 1, RETURN_WORDS],
    [VALUE_WORDS, RETURN_WORDS - 1],
    [0, RETURN_WORDS],
    [VALUE_WORDS, 0],
    [0, 0],
    [2 * VALUE_WORDS, RETURN_WORDS - 1],
];

const ENOUGH: [[usize; 2]; 3] = [
    [VALUE_WORDS, RETURN_WORDS],
    [VALUE_WORDS + 1, RETURN_WORDS],
    [VALUE_WORDS, 2 * RETURN_WORDS],
];

/// Grow on this input with so much fuel, value words and return words.
fn grow_on(input: &[u8], fuel: u64, [values, returns]: [usize; 2]) -> SourceCase {
    let grow = program("tree: Case 0, Leaf, Add, Var 0, Const 1, Node, Call 0 on 1, Call 0 on 2");
    SourceCase {
        values,
        returns,
        ..SourceCase::new(&file(&grow), input, fuel, 11)
    }
}

/// "The runs test 13 before tree or fuel."
pub fn runs() -> Vec<Known> {
    let deep = [2; 1_025];
    let given: [(&str, &[u8], u64); 5] = [
        ("fuel 14", &T, 14),
        ("fuel 0", &T, 0),
        ("no input", &[], 14),
        ("no tag", &[3], 0),
        ("too deep", &deep, 14),
    ];
    let short = |(name, input, fuel)| {
        TOO_SHORT.map(|space| {
            let name = format!("13, {name}, {space:?}");
            let case = grow_on(input, fuel, space);
            with_answer(&name, case, refused(13, 0, 0), &[])
        })
    };
    let enough = ENOUGH.map(|space| {
        let name = format!("no 13, {space:?}");
        let answer = ended(14, 0, (2, 1));
        with_answer(&name, grow_on(&T, 14, space), answer, &GROWN)
    });
    given.into_iter().flat_map(short).chain(enough).collect()
}
