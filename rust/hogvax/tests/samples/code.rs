//! The sample code.

use super::*;

/// An instruction's opcode, byte 1, operand and number.
pub type Instruction = (u8, u8, u16, i32);

/// Document 01's listing of Grow.
const GROW: [Instruction; 13] = [
    (10, 0, 9, 0),
    (11, 0, 0, 0),
    (7, 0, 0, 0),
    (1, 0, 0, 0),
    (0, 0, 0, 1),
    (2, 0, 0, 0),
    (9, 0, 0, 0),
    (6, 0, 0, 0),
    (4, 0, 12, 0),
    (8, 0, 0, 0),
    (12, 0, 0, 0),
    (12, 0, 0, 0),
    (13, 0, 0, 0),
];

/// Sum, by document 01's templates.
const SUM: [Instruction; 9] = [
    (10, 0, 5, 0), // Case 0: read tag, the node part is at 5
    (11, 0, 0, 0), // read number
    (1, 0, 0, 0),  // Var 0: get
    (5, 0, 0, 0),  // end, where a number is expected: slide
    (4, 0, 8, 0),  // jump past the node part
    (12, 0, 0, 0), // Add: Call 0 on 1
    (12, 0, 0, 0), // Call 0 on 2
    (2, 0, 0, 0),  // add
    (13, 1, 0, 0), // return, with the number
];

pub fn codes() -> [(&'static str, &'static [Instruction]); 2] {
    [("grow", &GROW), ("sum", &SUM)]
}

/// A tree of two leaves.
fn two_leaves(left: i32, right: i32) -> Vec<u8> {
    let (left, right) = (left.to_le_bytes(), right.to_le_bytes());
    [&[2, 1][..], &left, &[1], &right].concat()
}

#[test]
fn there_is_no_other_code() {
    assert_eq!(
        files("code"),
        codes().map(|(name, _)| format!("{name}.code"))
    );
}

#[test]
fn the_code_is_the_listing() {
    for (name, instructions) in codes() {
        let mut code = Vec::new();
        for (opcode, byte, operand, number) in instructions {
            code.extend([opcode, byte]);
            code.extend(operand.to_le_bytes());
            code.extend(number.to_le_bytes());
        }
        assert_eq!(bytes(&format!("code/{name}.code")), code, "{name}");
    }
}

#[test]
fn the_readme_lists_the_code() {
    let readme = fs::read_to_string(samples("README.md")).unwrap();
    for (name, instructions) in codes() {
        assert!(readme.contains(&format!("\n| `code/{name}.code` | ")));
        let start = |(address, instruction): (usize, &Instruction)| {
            let (opcode, byte, operand, number) = instruction;
            format!("| {address} | {opcode} | {byte} | {operand} | {number} | ")
        };
        let starts = instructions.iter().enumerate().map(start);
        let section = section(&readme, &format!("{name}.code"));
        assert_rows(&section, "address", starts.collect());
    }
}

#[test]
fn the_code_gives_what_the_readme_says() {
    let small = bytes("small.tokens");
    assert_eq!(small, two_leaves(5, 7));
    let (grow, sum) = (bytes("code/grow.code"), bytes("code/sum.code"));

    let mut output = [0; 11];
    let ran = hogvax::perform(&grow, &small, 25, &mut output);
    assert_eq!(
        ran.to_string(),
        "ended units 25 read 11 written 11 number 0"
    );
    assert_eq!(output[..], two_leaves(6, 8));
    let ran = hogvax::perform(&grow, &small, 24, &mut output);
    let line = "refused 14 11 units 24 read 11 written 11 number 0";
    assert_eq!(ran.to_string(), line);

    let ran = hogvax::perform(&sum, &small, 17, &mut []);
    assert_eq!(
        ran.to_string(),
        "ended units 17 read 11 written 0 number 12"
    );
    let ran = hogvax::perform(&sum, &two_leaves(i32::MAX, 1), 17, &mut []);
    let line = "refused 21 11 units 15 read 11 written 0 number 0";
    assert_eq!(ran.to_string(), line);
}
