//! Files, inputs, fuels and lent buffers made at random.

use std::collections::BTreeMap;

use reference::generate::runs::any_run;
use reference::generate::{order_damage, ordered};
use reference::{translate, Fault, Random};

use super::*;

/// So many cases.
const CASES: usize = if cfg!(debug_assertions) {
    2_000
} else {
    15_000
};

/// A program that a pass refuses, if there is a place for the fault.
fn with_a_fault(random: &mut Random) -> Program {
    let functions = 1 + random.below(4);
    let program = ordered::program(random, functions, 10 * functions);
    let fault = random.pick(&Fault::ALL);
    let damaged = order_damage::apply(fault, random, &program);
    damaged.map_or(program, |(damaged, _)| damaged)
}

/// A run of any kind; one in ten with a fault in its program, since changes at
/// random come to some of them hardly ever.
fn any_case(random: &mut Random) -> RunCase {
    let case = any_run(random);
    match random.below(10) {
        0 => RunCase {
            file: file(&with_a_fault(random)),
            ..case
        },
        _ => case,
    }
}

/// Which buffers are too short: the code, the values, the returns.
fn short_buffers(case: &RunCase) -> [bool; 3] {
    let need = translate(&case.file).map_or(0, |code| code.len());
    [
        case.code < need,
        case.value_words < VALUE_WORDS,
        case.return_words < RETURN_WORDS,
    ]
}

/// Every answer comes up, 19 and 20 aside, which a program's run never gives;
/// and 13 for each buffer alone.
#[test]
fn random_cases_are_answered_as_the_reference_does() {
    let mut random = Random::new(350);
    let mut lent = Lent::new();
    let (mut seen, mut short) = (BTreeMap::new(), BTreeMap::new());
    for _ in 0..CASES {
        let case = any_case(&mut random);
        let gave = lent.answer(&case);
        *seen.entry(gave.number).or_insert(0) += 1;
        if gave.number == 13 {
            *short.entry(short_buffers(&case)).or_insert(0) += 1;
        }
    }
    println!("{seen:?} {short:?}");
    assert!(seen.keys().copied().eq(super::known::ANSWERS), "{seen:?}");
    for buffer in 0..3 {
        let alone = [0, 1, 2].map(|other| other == buffer);
        assert!(short.contains_key(&alone), "{alone:?}: {short:?}");
    }
}

/// What `run` gives is what `perform` gives on the code that `translate`
/// gives. All use the same work space.
#[test]
fn a_run_is_a_translation_performed() {
    let mut random = Random::new(351);
    let mut lent = Lent::new();
    let mut translated = 0;
    for _ in 0..CASES / 4 {
        let case = any_case(&mut random);
        let Ok(code) = hogvax::translate(&case.file) else {
            continue;
        };
        let mut output = vec![FILLER; case.output];
        let (input, work) = (&case.input, &mut lent.work);
        let performed = hogvax::perform_in(work, &code, input, case.fuel, &mut output);
        assert!(lent.run(&case) == (performed, output), "{case:?}");
        translated += 1;
    }
    assert!(2 * translated > CASES / 4, "{translated}");
}
