//! `source`: what it alone does.

use super::run_verbs::{small, GROWN, SOURCE};
use super::*;

/// What is said of a run that is refused after so many expressions begun.
fn refused(number: u32, position: usize, begun: u64) -> String {
    format!("refused {number} {position} begun {begun} written 0 number 0 tips 0 depth 0\n")
}

/// There is no number after a refusal.
#[test]
fn a_refused_number_is_not_given() {
    let sum = sample("programs/sum.program");
    let output = run(&["source", &sum, &small(), "--fuel", "7"]);
    assert_gives(&output, 1, &[], &refused(14, 0, 7));
}

/// "The source run needs pass one only": these are refused by `check` with 11
/// or 12. Document 01: "Its source run on T gives labels 7, 5."
#[test]
fn programs_out_of_order_are_evaluated() {
    let swapped = [2, 1, 7, 0, 0, 0, 1, 5, 0, 0, 0];
    let output = SOURCE.run_first(&bytes("programs/swap.program"), &[]);
    let line = "ended begun 10 written 11 number 0 tips 2 depth 1\n";
    assert_gives(&output, 0, &swapped, line);
    let one = || Expr::constant(1);
    let left = |above: u8| if above == 0 { 0 } else { 2 * above - 1 };
    let cases = (0..16).rev();
    let cases = cases.fold(one(), |node, above| Expr::case(left(above), one(), node));
    for (body, told, begun) in [
        (Expr::case(0, one(), call(1)), "refused 11 2\n", 4),
        (cases, "refused 12 32\n", 3),
    ] {
        let program = file(false, body);
        assert_says(&run_on(&["check"], &program), 1, told);
        let line = format!("ended begun {begun} written 0 number 1 tips 2 depth 1\n");
        assert_gives(&SOURCE.run_first(&program, &[]), 0, b"1\n", &line);
    }
}

// Inputs

/// "The source run applies the tree reader before it evaluates": its refusals
/// come before fuel, with their own position.
#[test]
fn inputs_that_are_no_tree_are_told() {
    let deep = [2; 1_025];
    for (input, number, position) in [
        (&[][..], 15, 0),
        (&[1, 5, 0, 0], 15, 1),
        (&T[..8], 15, 7),
        (&[3], 16, 0),
        (&with(&T, 6, 3), 16, 6),
        (&deep, 20, 1_024),
    ] {
        let line = refused(number, position, 0);
        for options in [&[][..], &["--fuel", "0"], &["--space", "0"]] {
            let output = SOURCE.run_grow_on(input, options);
            assert_gives(&output, 1, &[], &line);
        }
    }
}

// Fuel

/// Document 01: "Source run: fuel 14 ends, 13 gives 14." Its position is 0.
#[test]
fn every_fuel_is_told() {
    for fuel in 0..14 {
        let output = SOURCE.run_grow(&["--fuel", &fuel.to_string()]);
        assert_gives(&output, 1, &[], &refused(14, 0, fuel));
    }
    let output = SOURCE.run_grow(&["--fuel", "14"]);
    assert_gives(&output, 0, &GROWN, SOURCE.ended);
}

/// Document 01: "Call 0 on 0 passes; fuel 1,023 gives 14, 1,024 gives 18."
#[test]
fn call_0_on_0_is_told() {
    for tree_valued in [false, true] {
        let program = file(tree_valued, call(0));
        for (options, number, begun) in [
            (&["--fuel", "1023"][..], 14, 1_023),
            (&["--fuel", "1024"], 18, 1_024),
            (&["--space", "0"], 18, 1_024),
            (&[], 18, 1_024),
        ] {
            let line = refused(number, 0, begun);
            assert_gives(&SOURCE.run_first(&program, options), 1, &[], &line);
        }
    }
}

// Space

/// "17 output shorter than the result, after evaluation": at 0, all
/// expressions begun; after 14.
#[test]
fn space_is_what_the_output_has() {
    for space in 0..11 {
        let space = space.to_string();
        for option in ["--space", "--most-space"] {
            let output = SOURCE.run_grow(&[option, &space]);
            assert_gives(&output, 1, &[], &refused(17, 0, 14));
            let output = SOURCE.run_grow(&[option, &space, "--fuel", "13"]);
            assert_gives(&output, 1, &[], &refused(14, 0, 13));
        }
    }
}

// Other answers

/// What `run` gives, `source` gives.
#[test]
fn the_samples_give_what_their_stream_runs_give() {
    for tokens in ["small.tokens", "clades.tokens"] {
        for name in ["depth", "grow", "prune", "sum", "tips"] {
            let program = sample(&format!("programs/{name}.program"));
            let tokens = sample(tokens);
            let [streamed, sourced] = ["run", "source"].map(|verb| run(&[verb, &program, &tokens]));
            assert_eq!(sourced.status.code(), Some(0), "{name}");
            assert!(!sourced.stdout.is_empty(), "{name}");
            assert_eq!(sourced.stdout, streamed.stdout, "{name}");
        }
    }
}
