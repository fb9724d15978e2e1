//! Sums out of range: the refusal 21, and what is said of it besides.

use super::run_verbs::{Verb, OF_PROGRAMS, PERFORM, RUN, SOURCE};
use super::stream::refused;
use super::texts::{written, GROW, MISPLACED, MISPLACED_NOTICE};
use super::*;

/// The sum of all labels.
const SUM: &str = "\
# The sum of all labels.
function 0 takes tree 0 gives number
  Case 0
    Var 0
    Add
      Call 0 on 1
      Call 0 on 2
";

/// What is said of the sum of two leaves, if it is out of range.
fn explained(place: &str, lines: [&str; 2], left: i32, right: i32) -> String {
    let sum = i64::from(left) + i64::from(right);
    let [first, second] = lines;
    format!(
        "{place}: record 4, 'Add': the sum of {left} and {right} is {sum}, which is out of range\n  \
         numbers are -2147483648 to 2147483647\n  \
         {left}: the first number, 'Call 0 on 1'{first}\n  \
         {right}: the second number, 'Call 0 on 2'{second}\n"
    )
}

/// What a verb says of such a sum: the answer, the explanation, and in a stream run
/// the bytes read.
fn said(verb: &Verb, explained: &str) -> String {
    match verb.name {
        "run" => {
            let line = refused(21, 15, 11, 0);
            format!("{line}{explained}  bytes read by then: 11\n")
        }
        _ => format!("refused 21 4 begun 8 written 0 number 0 tips 0 depth 0\n{explained}"),
    }
}

/// Numbers whose sum is just outside, or far.
const OUTSIDE: [(i32, i32); 5] = [
    (i32::MAX, 1),
    (1, i32::MAX),
    (i32::MAX, i32::MAX),
    (i32::MIN, -1),
    (i32::MIN, i32::MIN),
];

/// Document 01's case Sum as request N3 changes it: "The Sum case of document 01
/// becomes this refusal." Of a text the line is named.
#[test]
fn the_sum_of_a_text_is_named_with_its_line() {
    let path = written("sums-text", SUM);
    for (left, right) in OUTSIDE {
        let told = explained(
            &format!("{path}:5:5"),
            [" (line 6)", " (line 7)"],
            left,
            right,
        );
        for verb in OF_PROGRAMS {
            let output = run_on(&[verb.name, &path], &two_leaves(left, right));
            assert_gives(&output, 1, &[], &said(&verb, &told));
        }
    }
}

#[test]
fn the_sum_of_a_program_file_is_named_with_its_record() {
    let path = sample("programs/sum.program");
    for (left, right) in OUTSIDE {
        let told = explained(&path, ["", ""], left, right);
        for verb in OF_PROGRAMS {
            let output = run_on(&[verb.name, &path], &two_leaves(left, right));
            assert_gives(&output, 1, &[], &said(&verb, &told));
        }
    }
}

/// Code has no records.
#[test]
fn a_sum_of_code_is_told_with_the_bytes_read() {
    let told = "notice: a sum lies outside -2147483648 to 2147483647; \
        bytes of standard input read by then: 11\n";
    let sum = sample("code/sum.code");
    for (left, right) in OUTSIDE {
        let output = run_on(&["perform", &sum, "--fuel", "16"], &two_leaves(left, right));
        let line = refused(21, 15, 11, 0);
        assert_gives(&output, 1, &[], &format!("{line}{told}"));
    }
}

/// 14 comes first: in the stream run also with fuel for all that is performed, in
/// the source run only before an expression. There is nothing to be said then.
#[test]
fn fuel_comes_before_a_sum() {
    let input = two_leaves(i32::MAX, 1);
    let sum = sample("programs/sum.program");
    for fuel in 0..=16 {
        let word = fuel.to_string();
        let output = run_on(&["run", &sum, "--fuel", &word], &input);
        let is_14 = output.stderr.starts_with(b"refused 14 ");
        assert_eq!(is_14, fuel <= 15, "{fuel}");
        assert_eq!(
            String::from_utf8_lossy(&output.stderr).lines().count() == 1,
            is_14
        );
        let output = run_on(&["source", &sum, "--fuel", &word], &input);
        let is_14 = output.stderr.starts_with(b"refused 14 ");
        assert_eq!(is_14, fuel <= 7, "{fuel}");
        assert_eq!(
            String::from_utf8_lossy(&output.stderr).lines().count() == 1,
            is_14
        );
    }
}

/// A stream run may meet a sum in an input that the source run refuses: one that
/// ends in the middle of a tree, or is too deep.
#[test]
fn the_source_run_may_not_say_which_sum_it_is() {
    let path = written("sums-no-tree", GROW);
    let whole = two_leaves(i32::MAX, 1);
    let cut = &whole[..7];
    // Under 1,025 nodes; but the leaf at the left comes first.
    let deep = [&whole[..6], &[2; 1_025]].concat();
    for (input, number, position) in [(cut, 15, 7), (&deep, 20, 1_029)] {
        let output = run_on(&["run", &path], input);
        let told = format!(
            "notice: a sum lies outside -2147483648 to 2147483647; \
            bytes of standard input read by then: 6\n  \
            its Add is not named: the bytes read in are refused as a tree, \
            with {number} at {position}; 'hogvax source' tries the whole input\n"
        );
        let line = refused(21, 8, 6, 2);
        assert_gives(&output, 1, &[], &format!("{line}{told}"));
        let output = run_on(&["source", &path], input);
        let counts = "begun 0 written 0 number 0 tips 0 depth 0";
        let line = format!("refused {number} {position} {counts}\n");
        assert_gives(&output, 1, &[], &line);
    }
}

/// What was written before the sum, as with other refusals.
#[test]
fn partial_data_goes_out_before_a_sum() {
    let input = two_leaves(5, i32::MAX);
    let data = [2, 1, 6, 0, 0, 0, 1];
    for verb in [PERFORM, RUN] {
        let output = verb.run_grow_on(&input, &["--fuel", "25", "--partial"]);
        assert_eq!(output.status.code(), Some(1));
        assert_eq!(output.stdout, data);
        let line = refused(21, 19, 11, 7);
        assert!(output.stderr.starts_with(line.as_bytes()));
        let output = verb.run_grow_on(&input, &["--fuel", "25"]);
        assert_eq!(output.stdout, b"");
    }
    let output = SOURCE.run_grow_on(&input, &[]);
    assert_eq!(
        (output.status.code(), &output.stdout[..]),
        (Some(1), &[][..])
    );
}

/// After the explanation.
#[test]
fn a_line_that_stands_elsewhere_is_told_after_the_sum() {
    let input = folder("sums-misplaced").join("tokens");
    fs::write(&input, two_leaves(i32::MAX, 1)).unwrap();
    let told = explained(
        "standard input:4:5",
        [" (line 5)", " (line 6)"],
        i32::MAX,
        1,
    );
    for verb in OF_PROGRAMS {
        let words = [verb.name, "-", input.to_str().unwrap()];
        let output = run_on(&words, MISPLACED.as_bytes());
        let said = said(&verb, &told);
        assert_gives(&output, 1, &[], &format!("{said}{MISPLACED_NOTICE}"));
    }
}

/// The sums at the ends of the range are in range.
#[test]
fn the_last_sums_in_range_are_given() {
    let path = written("sums-in-range", SUM);
    for (left, right, number) in [
        (i32::MAX, 0, i32::MAX),
        (1 << 30, (1 << 30) - 1, i32::MAX),
        (i32::MIN, 0, i32::MIN),
        (-(1 << 30), -(1 << 30), i32::MIN),
    ] {
        for verb in OF_PROGRAMS {
            let output = run_on(&[verb.name, &path], &two_leaves(left, right));
            assert_eq!(output.status.code(), Some(0));
            assert_eq!(output.stdout, format!("{number}\n").into_bytes());
        }
    }
}
