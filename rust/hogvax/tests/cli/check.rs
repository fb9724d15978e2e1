//! `check`.

use reference::order::known;
use reference::{lay_out, Program};

use super::*;

fn grow() -> Vec<u8> {
    fs::read(sample("programs/grow.program")).unwrap()
}

/// The line that tells a program's answer.
fn line(answer: Result<(), reference::Refusal>) -> String {
    match answer {
        Ok(()) => "passed\n".to_owned(),
        Err(refusal) => format!("refused {} {}\n", refusal.number, refusal.position),
    }
}

fn file(program: &Program) -> Vec<u8> {
    lay_out(&program.records())
}

#[test]
fn check_passes_every_sample() {
    for name in ["depth", "grow", "prune", "sum", "tips"] {
        let path = sample(&format!("programs/{name}.program"));
        assert_says(&run(&["check", &path]), 0, "passed\n");
    }
}

#[test]
fn check_reads_standard_input() {
    assert_says(&run_on(&["check"], &grow()), 0, "passed\n");
    assert_says(&run_on(&["check", "-"], &grow()), 0, "passed\n");
    assert_says(&run(&["check"]), 1, "refused 1 0\n");
}

/// Document 01's worked programs and traps among them.
#[test]
fn check_prints_passed_or_the_refusal() {
    for known in known::all() {
        let status = i32::from(known.answer.is_err());
        let output = run_on(&["check"], &file(&known.program));
        assert_says(&output, status, &line(known.answer));
    }
}

#[test]
fn check_prints_the_refusals_of_files() {
    let records = fs::read(sample("programs/grow.records")).unwrap();
    for (input, line) in [
        (vec![0; 511], "refused 1 0\n"),
        (with(&grow(), 20, 9), "refused 2 0\n"),
        (reference::lay_out_runs(&[&[]]), "refused 3 0\n"),
        (lay_out(&with(&records, 0, 2)), "refused 4 0\n"),
        (lay_out(&with(&records, 8, 2)), "refused 5 1\n"),
        (lay_out(&with(&records, 16, 9)), "refused 6 2\n"),
        (lay_out(&with(&records, 16, 5)), "refused 7 2\n"),
        (lay_out(&with(&records, 8, 0)), "refused 8 3\n"),
        (lay_out(&with(&records, 41, 1)), "refused 9 5\n"),
        (lay_out(&with(&records, 65, 2)), "refused 11 8\n"),
    ] {
        assert_says(&run_on(&["check"], &input), 1, line);
    }
    // Records are no program file.
    assert_says(&run_on(&["check"], &records), 1, "refused 1 0\n");
}
