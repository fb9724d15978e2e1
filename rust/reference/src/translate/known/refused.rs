//! Files that the rows or the passes refuse.

use crate::order::known::text::program;
use crate::program::{lay_out, mend_checks, BLOCK_BYTES};
use crate::tree::Refusal;

use super::Known;

/// A file for each number from 1 to 12, and which row is reported first.
pub fn files() -> Vec<Known> {
    let mut files = broken();
    files.extend(PROGRAMS.map(|(number, position, name, text)| {
        let file = lay_out(&program(text).records());
        refused(number, position, name, file)
    }));
    files
}

fn refused(number: u8, position: usize, name: &'static str, file: Vec<u8>) -> Known {
    Known {
        name,
        file,
        answer: Err(Refusal { number, position }),
    }
}

/// Grow's file with one byte changed at this place, its check mended.
fn changed(place: usize, byte: u8) -> Vec<u8> {
    let mut file = grow();
    file[place] = byte;
    mend_checks(&mut file);
    file
}

fn grow() -> Vec<u8> {
    let text = "tree: Case 0, Leaf, Add, Var 0, Const 1, Node, Call 0 on 1, Call 0 on 2";
    lay_out(&program(text).records())
}

/// Record 0 stands at byte 0, function 0's at 8, Case 0 at 16.
fn broken() -> Vec<Known> {
    let mut unmended = grow();
    unmended[16] = 9;
    let a_byte_more = [&grow()[..], &[0]].concat();
    let longest = grow().repeat(17);
    let too_long = grow().repeat(18);
    vec![
        refused(1, 0, "no bytes", vec![]),
        refused(1, 0, "a byte too few", grow()[..BLOCK_BYTES - 1].to_vec()),
        refused(1, 0, "a byte too many", a_byte_more),
        refused(1, 0, "18 blocks", too_long),
        refused(3, 0, "17 blocks, each the only one", longest),
        refused(2, 0, "check", unmended),
        refused(3, 0, "block number", changed(504, 1)),
        refused(4, 0, "edition", changed(0, 2)),
        refused(5, 1, "result", changed(8, 2)),
        refused(6, 2, "kind", changed(16, 9)),
        refused(7, 2, "prefix form", changed(16, 0)),
    ]
}

/// Refused by the passes: the number, the record, what it shows, the
/// functions.
const PROGRAMS: [(u8, usize, &str, &str); 9] = [
    (9, 2, "a name that is not bound", "number: Var 0"),
    (8, 2, "a number for a tree", "tree: Const 1"),
    (10, 34, "16 words", SIXTEEN_WORDS),
    (11, 6, "swapped", SWAPPED),
    (12, 32, "16 pending", SIXTEEN_PENDING),
    (
        11,
        2,
        "a tree unread",
        "number: Case 0, Const 1, Call 0 on 1",
    ),
    (11, 2, "a tree left", "number: Const 1"),
    (11, 5, "right part first", RIGHT_PART_FIRST),
    (
        9,
        4,
        "pass one of the last function",
        "number: Const 1 / number: Var 0",
    ),
];

const SWAPPED: &str = "tree: Case 0, Leaf, Var 0, Node, Call 0 on 2, Call 0 on 1";

const RIGHT_PART_FIRST: &str = "number: Case 0, Var 0, Add, Call 0 on 2, Call 0 on 1";

const SIXTEEN_WORDS: &str = "number: \
    Let, Call 0 on 0, Let, Const 1, Let, Const 1, Let, Const 1, \
    Let, Const 1, Let, Const 1, Let, Const 1, Let, Const 1, \
    Let, Const 1, Let, Const 1, Let, Const 1, Let, Const 1, \
    Let, Const 1, Let, Const 1, Let, Const 1, Let, Const 1, Const 1";

const SIXTEEN_PENDING: &str = "number: \
    Case 0, Const 1, Case 1, Const 1, Case 3, Const 1, Case 5, Const \
    1, Case 7, Const 1, Case 9, Const 1, Case 11, Const 1, Case 13, \
    Const 1, Case 15, Const 1, Case 17, Const 1, Case 19, Const 1, \
    Case 21, Const 1, Case 23, Const 1, Case 25, Const 1, Case 27, \
    Const 1, Case 29, Const 1, Const 1";
