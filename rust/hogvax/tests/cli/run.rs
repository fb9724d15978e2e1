//! `run`: what it alone does.

use super::run_verbs::{small, ENDED, GROWN, RUN};
use super::stream::refused;
use super::*;

/// There is no number after a refusal.
#[test]
fn a_refused_number_is_not_given() {
    let sum = sample("programs/sum.program");
    for options in [&["--fuel", "16"][..], &["--fuel", "16", "--partial"]] {
        let output = run(&[&["run", &sum, &small()], options].concat());
        assert_gives(&output, 1, &[], &refused(14, 16, 11, 0));
    }
}

/// Before the run, with 0 in every count; with --partial, too, there is no
/// data.
#[test]
fn programs_out_of_order_are_told() {
    let records = with(&bytes("programs/grow.records"), 65, 2);
    for (program, position) in [(lay_out(&records), 8), (bytes("programs/swap.program"), 6)] {
        let line = RUN.refused(11, position);
        assert_gives(&RUN.run_first(&program, &[]), 1, &[], &line);
        let output = RUN.run_first(&program, &["--fuel", "0", "--partial"]);
        assert_gives(&output, 1, &[], &line);
    }
}

/// Document 01: "Call 0 on 0 passes; fuel 1,023 gives 14, 1,024 gives 18."
#[test]
fn call_0_on_0_is_told() {
    for tree_valued in [false, true] {
        let program = file(tree_valued, call(0));
        for (options, number) in [
            (&["--fuel", "1023"][..], 14),
            (&["--fuel", "1024"], 18),
            (&[], 18),
        ] {
            let line = refused(number, 1_023, 0, 0);
            assert_gives(&RUN.run_first(&program, options), 1, &[], &line);
        }
    }
}

#[test]
fn fuel_may_be_left_out_with_partial() {
    assert_gives(&RUN.run_grow(&["--partial"]), 0, &GROWN, ENDED);
}

/// One tree is read, the first.
#[test]
fn trees_behind_the_first_are_not_read() {
    let input = [&T[..], &GROWN, &T].concat();
    assert_gives(&RUN.run_grow_on(&input, &[]), 0, &GROWN, ENDED);
}
