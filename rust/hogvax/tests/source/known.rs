//! Source runs with known answers: document 01's worked cases, worked
//! evaluations, deep programs and trees, and buffers that are too short.

use reference::source::known;

use super::known_runs::{assert_answers, assert_answers_alone, assert_sign_extended, Known};
use super::*;

/// The refusals that a source run gives: all but those of pass two and 19.
const REFUSALS: [u32; 18] = [
    1, 2, 3, 4, 5, 6, 7, 8, 9, 10, 13, 14, 15, 16, 17, 18, 20, 21,
];

/// The reference's known source runs.
pub fn all() -> Vec<Known<SourceCase, SLOTS>> {
    let known = known::all().into_iter().map(|known| Known {
        name: known.name,
        case: known.case,
        gave: Gave::told(known.answer, known.output),
        number: known.answer.number,
    });
    known.collect()
}

#[test]
fn known_source_runs_have_their_answers() {
    let seen = assert_answers(&mut Lent::new(), &all());
    assert!(seen.keys().eq([0].iter().chain(&REFUSALS)), "{seen:?}");
}

#[test]
fn known_source_runs_have_their_answers_in_a_new_work_space() {
    assert_answers_alone(&all());
}

#[test]
fn the_number_is_sign_extended() {
    assert_sign_extended(&mut Lent::new(), &all());
}

/// As text, an answer is the line that the reference writes.
#[test]
fn known_answers_have_their_lines() {
    for known in known::all() {
        let gave = Gave::told(known.answer, known.output);
        assert_eq!(gave.sourced().to_string(), known.answer.to_string());
    }
}

// Document 01's worked cases, written out

/// Document 01: "Tree T: 02 01 05 00 00 00 01 07 00 00 00."
const T: [u8; 11] = [2, 1, 5, 0, 0, 0, 1, 7, 0, 0, 0];

/// A call of function 0.
fn call(tree: u8) -> Expr {
    Expr::call(tree, 0, vec![])
}

/// The file of a program with this function alone.
fn alone(function: Function) -> Vec<u8> {
    file(&Program::new(vec![function]))
}

/// "Grow: Case 0, Leaf, Add, Var 0, Const 1, Node, Call 0 on 1, Call 0 on 2."
fn grow() -> Vec<u8> {
    let leaf = Expr::leaf(Expr::plus(Expr::var(0), Expr::constant(1)));
    let node = Expr::node(call(1), call(2));
    alone(tree_valued(0, Expr::case(0, leaf, node)))
}

/// The line of the answer, and the output of so many bytes, each 9 before.
fn source<const N: usize>(file: &[u8], input: &[u8], fuel: u64) -> (String, [u8; N]) {
    let mut output = [9; N];
    let sourced = hogvax::source(file, input, fuel, &mut output);
    (sourced.to_string(), output)
}

/// "Source run: fuel 14 ends, 13 gives 14."
#[test]
fn grow_on_t() {
    let grown = [2, 1, 6, 0, 0, 0, 1, 8, 0, 0, 0, 9];
    let line = "ended begun 14 written 11 number 0 tips 2 depth 1".to_owned();
    assert_eq!(source(&grow(), &T, 14), (line, grown));
    for fuel in 0..14 {
        let line = format!("refused 14 0 begun {fuel} written 0 number 0 tips 0 depth 0");
        assert_eq!(source(&grow(), &T, fuel), (line, [9; 12]));
    }
    let line = "refused 17 0 begun 14 written 0 number 0 tips 0 depth 0".to_owned();
    assert_eq!(source(&grow(), &T, 14), (line, [9; 10]));
}

/// "Case 0, Leaf, Var 0, Node, Call 0 on 2, Call 0 on 1: 11 at record 6. Its
/// source run on T gives labels 7, 5."
#[test]
fn right_tree_first() {
    let leaf = Expr::leaf(Expr::var(0));
    let swap = alone(tree_valued(
        0,
        Expr::case(0, leaf, Expr::node(call(2), call(1))),
    ));
    let refused = hogvax::check(&swap).unwrap_err();
    assert_eq!(refused.to_string(), "refused 11 6");
    let swapped = [2, 1, 7, 0, 0, 0, 1, 5, 0, 0, 0];
    let line = "ended begun 10 written 11 number 0 tips 2 depth 1".to_owned();
    assert_eq!(source(&swap, &T, 10), (line, swapped));
}

/// "Case 0, Const 1, Call 0 on 1 (number): 11 at record 2."
#[test]
fn a_tree_left_unread() {
    let body = Expr::case(0, Expr::constant(1), call(1));
    let line = "ended begun 4 written 0 number 1 tips 2 depth 1".to_owned();
    let unread = alone(number_valued(0, body));
    assert_eq!(source(&unread, &T, 4), (line, [9; 1]));
}

/// "Call 0 on 0 passes; fuel 1,023 gives 14, 1,024 gives 18."
#[test]
fn call_0_on_0() {
    for endless in [number_valued(0, call(0)), tree_valued(0, call(0))] {
        let endless = alone(endless);
        let line = "refused 14 0 begun 1023 written 0 number 0 tips 0 depth 0".to_owned();
        assert_eq!(source(&endless, &T, 1_023), (line, [9; 1]));
        let line = "refused 18 0 begun 1024 written 0 number 0 tips 0 depth 0".to_owned();
        assert_eq!(source(&endless, &T, 1_024), (line.clone(), [9; 1]));
        assert_eq!(source(&endless, &T, u64::MAX), (line, []));
    }
}

/// "Sum (Case 0, Var 0, Add, Call 0 on 1, Call 0 on 2) of leaves 2147483647
/// and 1". N3: "The Sum case of document 01 becomes this refusal." The Add is
/// record 4, and no fuel is looked at once both numbers stand.
#[test]
fn sum_of_two_leaves_is_out_of_range() {
    let body = Expr::case(0, Expr::var(0), Expr::plus(call(1), call(2)));
    let sum = alone(number_valued(0, body));
    let input = [2, 1, 0xff, 0xff, 0xff, 0x7f, 1, 1, 0, 0, 0];
    for fuel in 0..8 {
        let line = format!("refused 14 0 begun {fuel} written 0 number 0 tips 0 depth 0");
        assert_eq!(source(&sum, &input, fuel), (line, [9; 3]));
    }
    for fuel in [8, 9, u64::MAX] {
        let line = "refused 21 4 begun 8 written 0 number 0 tips 0 depth 0".to_owned();
        assert_eq!(source(&sum, &input, fuel), (line, [9; 3]));
    }
    // One less is the greatest number.
    let input = [2, 1, 0xfe, 0xff, 0xff, 0x7f, 1, 1, 0, 0, 0];
    let line = "ended begun 8 written 0 number 2147483647 tips 2 depth 1".to_owned();
    assert_eq!(source(&sum, &input, 8), (line, [9; 3]));
}
