//! The known evaluations as source runs: with as much fuel as expressions
//! begin and as much output as the result has bytes, and with less of each.

use crate::evaluate::known::{all, Known as Evaluated};
use crate::evaluate::{Ended, Evaluation};
use crate::tree::DEPTH_LIMIT;

use super::{ended, file, refused, with_answer, Known, SourceCase};

/// For each whose tree is read, runs with enough of all and with too little.
pub fn runs() -> Vec<Known> {
    let cases = all().into_iter();
    let cases = cases.filter(|known| known.tree.depth() <= DEPTH_LIMIT);
    cases
        .flat_map(|known| match &known.answer {
            Evaluation::Ended(ended) => of_ended(&known, ended),
            Evaluation::TooManyOpen { begun } => of_too_many(&known, *begun),
            Evaluation::TooLong => panic!("{}", known.name),
            Evaluation::SumOutOfRange { record, begun, .. } => of_broken(&known, *record, *begun),
        })
        .collect()
}

fn case(known: &Evaluated, fuel: u64, output: usize) -> SourceCase {
    SourceCase::new(&file(&known.program), &known.tree.tokens(), fuel, output)
}

/// Tips and depth by hand: the trees that evaluations end on are a leaf, two
/// leaves, three leaves in either shape, and caterpillars of depth 1,023.
fn measured(tokens: &[u8]) -> (usize, usize) {
    match tokens.len() {
        5 => (1, 0),
        11 => (2, 1),
        17 => (3, 2),
        6_143 => (1_024, 1_023),
        length => panic!("another tree, of {length} bytes"),
    }
}

fn of_ended(known: &Evaluated, evaluated: &Ended) -> Vec<Known> {
    let (begun, result) = (evaluated.begun, evaluated.value.bytes());
    let name = |what| format!("{}, evaluated, {what}", known.name);
    let enough = case(known, begun, result.len());
    let measured = measured(&enough.input);
    let answer = ended(begun, evaluated.value.number(), measured);
    let less_fuel = case(known, begun - 1, result.len());
    let mut runs = vec![
        with_answer(&name("enough"), enough, answer, &result),
        with_answer(
            &name("less fuel"),
            less_fuel,
            refused(14, 0, begun - 1),
            &[],
        ),
    ];
    if !result.is_empty() {
        let less_room = case(known, begun, result.len() - 1);
        let answer = refused(17, 0, begun);
        runs.push(with_answer(&name("less room"), less_room, answer, &[]));
    }
    runs
}

/// 21 with fuel for the expressions begun, whatever the output, and 14 with
/// less.
fn of_broken(known: &Evaluated, record: usize, begun: u64) -> Vec<Known> {
    let of = |fuel, output, answer| {
        let name = format!("{}, evaluated, fuel {fuel}, output {output}", known.name);
        with_answer(&name, case(known, fuel, output), answer, &[])
    };
    let answer = refused(21, record, begun);
    vec![
        of(u64::MAX, 50, answer),
        of(u64::MAX, 0, answer),
        of(begun, 50, answer),
        of(begun - 1, 50, refused(14, 0, begun - 1)),
    ]
}

fn of_too_many(known: &Evaluated, begun: u64) -> Vec<Known> {
    let name = |fuel| format!("{}, evaluated, fuel {fuel}", known.name);
    let of_fuel = |fuel, number| {
        let answer = refused(number, 0, begun.min(fuel));
        with_answer(&name(fuel), case(known, fuel, 5), answer, &[])
    };
    vec![
        of_fuel(u64::MAX, 18),
        of_fuel(begun, 18),
        of_fuel(begun - 1, 14),
    ]
}
