//! `perform`: what it alone does.

use super::run_verbs::{small, ENDED, GROWN, PERFORM};
use super::stream::refused;
use super::*;

/// What is said of Sum on T.
const SUMMED: &str = "ended units 17 read 11 written 0 number 12\n";

// Code

const PUSH: u8 = 0;
const JUMP: u8 = 4;
const NODE_TAG: u8 = 8;
const WRITE_NUMBER: u8 = 9;
const READ_NUMBER: u8 = 11;
const CALL: u8 = 12;
const RETURN: u8 = 13;

/// An instruction with its opcode, byte 1, operand and number.
fn instruction(opcode: u8, byte: u8, operand: u16, number: i32) -> [u8; 8] {
    let ([low, high], [a, b, c, d]) = (operand.to_le_bytes(), number.to_le_bytes());
    [opcode, byte, low, high, a, b, c, d]
}

/// An instruction that has an opcode alone.
fn plain(opcode: u8) -> [u8; 8] {
    instruction(opcode, 0, 0, 0)
}

/// Code that writes node tags and never ends: a tag, then a jump back.
fn endless_tags() -> Vec<u8> {
    [plain(NODE_TAG), plain(JUMP)].concat()
}

// Runs

fn sum() -> String {
    sample("code/sum.code")
}

/// Runs code, from standard input, over the sample that is T.
fn run_code(code: &[u8], options: &[&str]) -> Output {
    PERFORM.run_first(code, options)
}

// Answers

#[test]
fn sum_gives_a_number_and_no_data() {
    let output = run(&["perform", &sum(), &small(), "--fuel", "17"]);
    assert_gives(&output, 0, &[], SUMMED);
    let input = two_leaves(-2147483647, -1);
    let output = run_on(&["perform", &sum(), "--fuel", "17"], &input);
    let line = "ended units 17 read 11 written 0 number -2147483648\n";
    assert_gives(&output, 0, &[], line);
}

/// Document 01: "Call 0 on 0 passes; fuel 1,023 gives 14, 1,024 gives 18."
#[test]
fn call_0_on_0_is_told() {
    let code = [plain(CALL), plain(RETURN)].concat();
    for (fuel, line) in [
        ("1023", refused(14, 1_023, 0, 0)),
        ("1024", refused(18, 1_023, 0, 0)),
    ] {
        assert_gives(&run_code(&code, &["--fuel", fuel]), 1, &[], &line);
    }
}

#[test]
fn code_that_cannot_be_performed_is_told() {
    for (code, line) in [
        (&[][..], refused(19, 0, 0, 0)),
        (&plain(RETURN)[..7], refused(19, 0, 0, 0)),
        (&plain(14), refused(19, 0, 0, 0)),
        (&plain(255), refused(19, 0, 0, 0)),
        (&plain(WRITE_NUMBER), refused(19, 0, 0, 0)),
        (&instruction(RETURN, 1, 0, 0), refused(19, 0, 0, 0)),
        (&instruction(RETURN, 2, 0, 0), refused(19, 0, 0, 0)),
        (&instruction(CALL, 1, 0, 0), refused(19, 0, 0, 0)),
        (&instruction(JUMP, 0, 1, 0), refused(19, 1, 0, 0)),
        (&instruction(JUMP, 0, 65_535, 0), refused(19, 1, 0, 0)),
        (&plain(NODE_TAG), refused(19, 1, 0, 1)),
        // Grow without the last byte of its return.
        (&bytes("code/grow.code")[..103], refused(19, 12, 6, 6)),
    ] {
        assert_gives(&run_code(code, &["--fuel", "25"]), 1, &[], &line);
    }
}

#[test]
fn the_number_is_signed() {
    let read_and_return = [plain(READ_NUMBER), instruction(RETURN, 1, 0, 0)].concat();
    let code = folder("perform-number").join("code");
    fs::write(&code, read_and_return).unwrap();
    for number in [0, 1, -1, i32::MAX, i32::MIN] {
        let words = ["perform", code.to_str().unwrap(), "--fuel", "2"];
        let output = run_on(&words, &number.to_le_bytes());
        let line = format!("ended units 2 read 4 written 0 number {number}\n");
        assert_gives(&output, 0, &[], &line);
    }
}

#[test]
fn what_stands_behind_the_last_instruction_does_not_matter() {
    let mut code = bytes("code/grow.code");
    code.resize(20_000_000, 255);
    assert_gives(&run_code(&code, &["--fuel", "25"]), 0, &GROWN, ENDED);
}

/// An address from 4,128 up holds no instruction.
#[test]
fn the_longest_code_has_4128_instructions() {
    let last_two = [instruction(PUSH, 0, 0, 5), instruction(RETURN, 1, 0, 0)].concat();
    let code = |pushes| [plain(PUSH).repeat(pushes), last_two.clone()].concat();
    let output = run_code(&code(4_126), &["--fuel", "4128"]);
    let line = "ended units 4128 read 0 written 0 number 5\n";
    assert_gives(&output, 0, &[], line);
    let output = run_code(&code(4_127), &["--fuel", "5000"]);
    assert_gives(&output, 1, &[], &refused(19, 4_128, 0, 0));
}

/// No more is read than can be performed.
#[cfg(target_os = "linux")]
#[test]
fn endless_code_may_be_run() {
    let line = refused(19, 4_128, 0, 0);
    let output = run(&["perform", "/dev/zero", &small(), "--fuel", "5000"]);
    assert_gives(&output, 1, &[], &line);
    let mut command = command(&["perform", "-", &small(), "--fuel", "5000"]);
    let code = File::open("/dev/zero").unwrap();
    let output = command.stdin(code).output().unwrap();
    assert_gives(&output, 1, &[], &line);
}

// Operands and options

#[test]
fn fuel_must_be_given() {
    for words in [
        &["perform", "code"][..],
        &["perform", "code", "file"],
        &["perform", "code", "--space", "9", "--partial", "--out", "a"],
    ] {
        let told = "perform needs --fuel N, the most instructions to be performed";
        assert_eq!(trouble(run(words)), format!("hogvax: {told}\n"));
    }
}

// Space

#[test]
fn space_grows_where_it_is_left_out() {
    let fuel = ["--fuel", "6000000"];
    let line = refused(14, 6_000_000, 0, 3_000_000);
    let output = run_code(&endless_tags(), &fuel);
    assert_gives(&output, 1, &[], &line);
    let output = run_code(&endless_tags(), &[&fuel[..], &["--partial"]].concat());
    assert_gives(&output, 1, &[2; 3_000_000], &line);
}

#[test]
fn space_grows_up_to_most_space() {
    for most in [2_500_000, 1_048_577, 10, 0] {
        let line = refused(17, 2 * most, 0, most);
        let word = most.to_string();
        let options = ["--fuel", "6000000", "--partial", "--most-space", &word];
        let output = run_code(&endless_tags(), &options);
        assert_gives(&output, 1, &vec![2; most], &line);
    }
}

#[test]
fn space_that_is_given_does_not_grow() {
    let options = ["--fuel", "6000000", "--partial", "--space", "2000000"];
    let line = refused(17, 4_000_000, 0, 2_000_000);
    let output = run_code(&endless_tags(), &options);
    assert_gives(&output, 1, &[2; 2_000_000], &line);
}

// Data

#[test]
fn no_data_is_an_empty_file() {
    let out = folder("perform-none").join("tokens");
    let out = out.to_str().unwrap();
    fs::write(out, "before").unwrap();
    let words = ["perform", &sum(), &small(), "--fuel", "17", "--out", out];
    assert_gives(&run(&words), 0, &[], SUMMED);
    assert_eq!(fs::read(out).unwrap(), []);
}

#[test]
fn partial_data_goes_out_where_an_instruction_cannot_be_performed() {
    let code = [plain(NODE_TAG), plain(14)].concat();
    let output = run_code(&code, &["--fuel", "9999", "--partial"]);
    assert_gives(&output, 1, &[2], &refused(19, 1, 0, 1));
}
