//! The order of refusals: each with the faults of all that come after it.

use reference::source::known;

use super::*;

/// Inputs that are no tree, and where that is reported.
const NO_TREES: [(&[u8], u32, u64); 4] = [
    (&[], 15, 0),
    (&[2, 1, 0, 0, 0], 15, 2),
    (&[2, 2, 3], 16, 2),
    (&[2; 1_100], 20, 1_024),
];

/// A leaf and a byte after it.
const LEAF: [u8; 6] = [1, 0, 0, 0, 0, 3];

/// A call of function 0.
fn call(tree: u8) -> Expr {
    Expr::call(tree, 0, vec![])
}

/// The file of a program with this function alone. No pass two passes it.
fn out_of_order(body: Expr) -> Vec<u8> {
    let file = file(&Program::new(vec![tree_valued(0, body)]));
    let refused = hogvax::check(&file).unwrap_err();
    assert_eq!(refused.number, 11);
    file
}

fn leaf(label: i32) -> Expr {
    Expr::leaf(Expr::constant(label))
}

/// A node of two leaves, 5 expressions: 11 bytes.
fn two_leaves() -> Vec<u8> {
    out_of_order(Expr::node(leaf(5), leaf(7)))
}

/// A leaf, and then calls without end.
fn endless() -> Vec<u8> {
    let again = Expr::case(0, call(0), call(1));
    let both = Expr::node(again, call(0));
    out_of_order(Expr::node(leaf(5), both))
}

/// What the library gives, which is what the reference gives, has this number
/// and these slots.
fn assert_refused(lent: &mut Lent, case: &SourceCase, number: u32, position: u64, begun: u64) {
    let gave = lent.answer(case);
    let slots = refused_slots(position, begun);
    assert_eq!((gave.number, gave.slots), (number, slots), "{case:?}");
    assert!(gave.output.iter().all(|&byte| byte == FILLER), "{case:?}");
}

/// The known runs whose file is refused, in a work space that is too short, on
/// an input that is no tree, without fuel, with and without output.
#[test]
fn a_file_is_refused_first() {
    let mut lent = Lent::new();
    let mut seen = [0; 11];
    for known in known::all() {
        let Some(refusal) = known.answer.refused else {
            continue;
        };
        let (number, position) = (refusal.number.into(), refusal.position as u64);
        if number > 10 {
            continue;
        }
        for (input, _, _) in NO_TREES {
            for (values, returns) in [(VALUE_WORDS, RETURN_WORDS), (0, 0)] {
                for output in [0, 11] {
                    let case = SourceCase {
                        values,
                        returns,
                        ..SourceCase::new(&known.case.file, input, 0, output)
                    };
                    assert_refused(&mut lent, &case, number, position, 0);
                }
            }
        }
        seen[number as usize] += 1;
    }
    assert!(seen[1..].iter().all(|&count| count > 0), "{seen:?}");
}

/// "The runs test 13 before tree or fuel."
#[test]
fn short_work_space_is_refused_before_the_input() {
    let mut lent = Lent::new();
    for file in [two_leaves(), endless()] {
        for input in NO_TREES
            .map(|(input, _, _)| input)
            .iter()
            .chain([&&LEAF[..]])
        {
            for fuel in [0, 9_999] {
                for output in [0, 11] {
                    let case = SourceCase {
                        returns: RETURN_WORDS - 1,
                        ..SourceCase::new(&file, input, fuel, output)
                    };
                    assert_refused(&mut lent, &case, 13, 0, 0);
                }
            }
        }
    }
}

/// "The source run applies the tree reader before it evaluates."
#[test]
fn an_input_is_refused_before_fuel() {
    let mut lent = Lent::new();
    for file in [two_leaves(), endless()] {
        for (input, number, position) in NO_TREES {
            for fuel in [0, 9_999] {
                for output in [0, 11] {
                    let case = SourceCase::new(&file, input, fuel, output);
                    assert_refused(&mut lent, &case, number, position, 0);
                }
            }
        }
    }
}

/// "17 output shorter than the result, after evaluation".
#[test]
fn an_output_that_is_too_short_is_refused_last() {
    let mut lent = Lent::new();
    let file = two_leaves();
    for output in 0..11 {
        for fuel in 0..5 {
            let case = SourceCase::new(&file, &LEAF, fuel, output);
            assert_refused(&mut lent, &case, 14, 0, fuel);
        }
        for fuel in [5, 6, u64::MAX] {
            let case = SourceCase::new(&file, &LEAF, fuel, output);
            assert_refused(&mut lent, &case, 17, 0, 5);
        }
    }
    // Each call begins Node, Leaf, Const, Node, Case and Call.
    let (file, begun) = (endless(), 6 * 1_024);
    for output in [0, 1, 5, 11, 1_000] {
        for fuel in [begun, begun + 1, u64::MAX] {
            let case = SourceCase::new(&file, &LEAF, fuel, output);
            assert_refused(&mut lent, &case, 18, 0, begun);
        }
        let case = SourceCase::new(&file, &LEAF, begun - 1, output);
        assert_refused(&mut lent, &case, 14, 0, begun - 1);
    }
}

/// "a call's depth is tested after its arguments": with 1,024 open, the
/// arguments of one call more are begun, and a call among them is the one that
/// is refused.
#[test]
fn arguments_come_before_a_call_too_many() {
    let mut lent = Lent::new();
    let one = || Expr::constant(1);
    let other = |argument| Expr::call(0, 1, vec![argument]);
    for (argument, begun_each) in [
        (Expr::var(0), 2),
        (Expr::plus(Expr::var(0), one()), 4),
        (other(Expr::var(0)), 3),
        (other(other(one())), 4),
    ] {
        let functions = vec![
            number_valued(0, other(one())),
            number_valued(1, other(argument)),
        ];
        let file = file(&Program::new(functions));
        // The first call begins two, each of 1,023 calls begins all of its own.
        let begun = 2 + 1_023 * begun_each;
        let case = SourceCase::new(&file, &LEAF, u64::MAX, 0);
        assert_refused(&mut lent, &case, 18, 0, begun);
        let case = SourceCase::new(&file, &LEAF, begun, 0);
        assert_refused(&mut lent, &case, 18, 0, begun);
        let case = SourceCase::new(&file, &LEAF, begun - 1, 0);
        assert_refused(&mut lent, &case, 14, 0, begun - 1);
    }
}
