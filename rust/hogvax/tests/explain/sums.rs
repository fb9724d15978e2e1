//! Which sum is out of range, in words.

use hogvax::assembly::explain_sum;
use hogvax::{Sourced, WorkSpace};
use reference::generate::sources::any_program_and_tree;
use reference::generate::{left_caterpillar, mixed_caterpillar, right_caterpillar};
use reference::{lay_out, Expr, Function, Program, Tree};

use super::*;

/// More fuel than a run here uses.
const MUCH: u64 = 10_000_000;

/// The source run of these records, and what is said of it.
fn explained(records: &[u8], input: &[u8]) -> (Sourced, Explanation) {
    let sourced = hogvax::source(&lay_out(records), input, MUCH, &mut []);
    (sourced, explain_sum(records, input, &sourced))
}

/// The message and the details, each with its record.
fn lines(explanation: &Explanation) -> Vec<String> {
    let detail = |detail: &hogvax::assembly::Detail| match detail.record {
        Some(record) => format!("{record}: {}", detail.text),
        None => detail.text.clone(),
    };
    let details = explanation.details.iter().map(detail);
    let message = format!("{}: {}", explanation.record, explanation.message);
    [message].into_iter().chain(details).collect()
}

const RANGE: &str = "numbers are -2147483648 to 2147483647";

/// Every kind of record on the way to a sum that is out of range, in a second
/// call; the numbers can be followed by hand.
const ALL_KINDS: &[u8] = b"\
function 0 takes tree 0 gives tree
  Case 0
    Leaf
      Var 0
    Node
      Call 1 on 1
        Const -7
        Const 2147483640
      Call 0 on 2
function 1 takes tree 0, number 0, number 1 gives tree
  Case 0
    Let
      Add
        Var 2
        Const 2
      Leaf
        IfZero
          Add
            Var 0
            Var 3
          Add
            Var 1
            Var 3
          Const 1
    Node
      Call 1 on 1
        Var 0
        Var 1
      Call 0 on 2
";

#[test]
fn every_kind_is_followed() {
    let records = read(ALL_KINDS).unwrap().records;
    let leaf = Tree::leaf;
    // The label 5 and 2 are 7, which with -7 is 0: so 7 is added to 2147483640. The
    // evaluation ends, and there is no output for its result.
    for left in [leaf(5), Tree::node(leaf(5), leaf(7)), leaf(0)] {
        let tree = Tree::node(left, leaf(1)).tokens();
        let (sourced, _) = explained(&records, &tree);
        assert_eq!(sourced.refused.map(|refused| refused.number), Some(17));
    }
    let text = String::from_utf8(ALL_KINDS.to_vec()).unwrap();
    let larger = text.replace("2147483640", "2147483641");
    let records = read(larger.as_bytes()).unwrap().records;
    let tree = Tree::node(Tree::node(leaf(5), leaf(7)), leaf(1)).tokens();
    let (sourced, explanation) = explained(&records, &tree);
    assert_eq!(sourced.refused.map(|refused| refused.number), Some(21));
    let expected = [
        "21: the sum of 2147483641 and 7 is 2147483648, which is out of range",
        RANGE,
        "22: 2147483641: the first number, 'Var 1'",
        "23: 7: the second number, 'Var 3'",
    ];
    assert_eq!(lines(&explanation), expected);
}

fn number_valued(body: Expr) -> Program {
    Program::new(vec![Function {
        tree_valued: false,
        parameters: 0,
        body,
    }])
}

fn call(tree: u8) -> Expr {
    Expr::call(tree, 0, vec![])
}

/// The sum of all labels, the left part first or the right one.
fn sums() -> [Program; 2] {
    [[1, 2], [2, 1]].map(|[first, second]| {
        let sum = Expr::plus(call(first), call(second));
        number_valued(Expr::case(0, Expr::var(0), sum))
    })
}

/// The exact numbers of the first sum over a tree that is out of range, the left
/// part being taken first; or the sum.
fn first_outside(tree: &Tree) -> Result<i32, (i32, i32)> {
    match tree {
        Tree::Leaf(label) => Ok(*label),
        Tree::Node(left, right) => {
            let (left, right) = (first_outside(left)?, first_outside(right)?);
            left.checked_add(right).ok_or((left, right))
        }
    }
}

/// The same tree, the parts of each node exchanged.
fn mirrored(tree: &Tree) -> Tree {
    match tree {
        Tree::Leaf(label) => Tree::leaf(*label),
        Tree::Node(left, right) => Tree::node(mirrored(right), mirrored(left)),
    }
}

/// Trees of all shapes, and programs in order and out of order, whose numbers are
/// known.
#[test]
fn the_numbers_are_those_of_the_sum() {
    let mut random = Random::new(210);
    let mut found = 0;
    for round in 0..400 {
        let tips = 2 + random.below(60);
        let tree = match round % 4 {
            0 => left_caterpillar(&mut random, tips),
            1 => right_caterpillar(&mut random, tips),
            2 => mixed_caterpillar(&mut random, tips),
            _ => reference::generate::tree(&mut random, tips),
        };
        let tokens = tree.tokens();
        let taken = [first_outside(&tree), first_outside(&mirrored(&tree))];
        for (program, taken) in sums().iter().zip(taken) {
            let (sourced, explanation) = explained(&program.records(), &tokens);
            let Err((first, second)) = taken else {
                assert_eq!(sourced.refused, None);
                continue;
            };
            let sum = i64::from(first) + i64::from(second);
            let message =
                format!("4: the sum of {first} and {second} is {sum}, which is out of range");
            assert_eq!(lines(&explanation)[0], message);
            found += 1;
        }
    }
    assert!(found > 200, "{found}");
}

/// The deepest trees and the most open calls: no recursion, and numbers are found
/// there too. The stack is small.
#[test]
fn the_deepest_sum_is_found() {
    let labels = |label| vec![reference::Token::Leaf(label); 1_023];
    let left = [vec![reference::Token::Node; 1_023], labels(1)].concat();
    let tokens = [left, vec![reference::Token::Leaf(i32::MAX)]].concat();
    let tree = Tree::from_prefix(&tokens).unwrap();
    let [sum, other] = sums();
    let explained = |program: &Program, tree: &Tree| {
        let (records, tokens) = (program.records(), tree.tokens());
        let work = move || explained(&records, &tokens).1;
        let thread = std::thread::Builder::new().stack_size(1 << 20);
        lines(&thread.spawn(work).unwrap().join().unwrap())[0].clone()
    };
    // From the left, 1 is added 1,022 times before the last leaf comes.
    let message = "4: the sum of 1023 and 2147483647 is 2147484670, which is out of range";
    assert_eq!(explained(&sum, &tree), message);
    let message = "4: the sum of 2147483647 and 1023 is 2147484670, which is out of range";
    assert_eq!(explained(&other, &tree), message);
}

/// Programs made at random: wherever the library answers 21 the numbers are found,
/// and their sum is out of range.
#[test]
fn the_numbers_are_found_in_every_program() {
    let mut random = Random::new(211);
    let mut work = WorkSpace::new();
    let mut found = 0;
    for _ in 0..3_000 {
        let (program, tree) = any_program_and_tree(&mut random);
        let (records, tokens) = (program.records(), tree.tokens());
        let sourced = hogvax::source_in(&mut work, &lay_out(&records), &tokens, 20_000, &mut []);
        let explanation = explain_sum(&records, &tokens, &sourced);
        if sourced.refused.is_none_or(|refused| refused.number != 21) {
            assert_eq!(explanation.message, general(sourced.refused));
            continue;
        }
        assert_eq!(
            Some(explanation.record as u64),
            sourced.refused.map(|why| why.position)
        );
        let message = &explanation.message;
        let numbers: Vec<i64> = message
            .split([' ', ','])
            .filter_map(|word| word.parse().ok())
            .collect();
        let [first, second, sum] = numbers[..] else {
            panic!("{message}: {program:?}");
        };
        assert_eq!(first + second, sum);
        assert!(i32::try_from(sum).is_err(), "{message}");
        assert_eq!(explanation.details.len(), 3);
        found += 1;
    }
    assert!(found > 100, "{found}");
}

/// What is said where there is no sum to be explained.
fn general(refused: Option<Refused>) -> String {
    let none = Refused {
        number: 0,
        position: 0,
    };
    explain(&[], refused.unwrap_or(none)).message
}

/// Where the answer is not that of these records on this tree, no numbers are
/// shown.
#[test]
fn other_answers_have_no_numbers() {
    let [sum, _] = sums();
    let records = sum.records();
    let tokens = Tree::node(Tree::leaf(i32::MAX), Tree::leaf(1)).tokens();
    let (sourced, _) = explained(&records, &tokens);
    let expected = ["4: the sum of its two numbers is out of range", RANGE];
    for begun in [0, 1, 7, 9, u64::MAX] {
        let other = Sourced { begun, ..sourced };
        let explanation = explain_sum(&records, &tokens, &other);
        assert_eq!(lines(&explanation), expected, "{begun}");
    }
    for (records, tokens) in [
        (&records[..], &tokens[..10]),
        (&records, &[]),
        (&records[..48], &tokens),
        (&records[..16], &tokens),
        (&[], &tokens),
    ] {
        let explanation = explain_sum(records, tokens, &sourced);
        assert_eq!(lines(&explanation), expected);
    }
    let refused = Some(Refused {
        number: 21,
        position: 3,
    });
    let explanation = explain_sum(&records, &tokens, &Sourced { refused, ..sourced });
    assert_eq!(explanation.details.len(), 1);
}

/// Any bytes in place of records and tree end with some sentence.
#[test]
fn any_bytes_may_be_explained() {
    let mut random = Random::new(212);
    for Checked { records, .. } in programs() {
        let input: Vec<u8> = (0..30).map(|_| 1 + random.below(3) as u8).collect();
        let sourced = Sourced {
            refused: Some(Refused {
                number: 21,
                position: 4,
            }),
            begun: random.below(2_000) as u64,
            written: 0,
            number: 0,
            tips: 0,
            depth: 0,
        };
        let explanation = explain_sum(records, &input, &sourced);
        assert!(explanation.message.starts_with("the sum of "));
    }
}
