//! Programs made at random: right ones, changed ones, and ones with each
//! fault.

use std::collections::BTreeMap;

use reference::generate::{changed_program, order_damage, ordered, programs};
use reference::{Fault, Program, Random};

use super::*;

/// How often each answer was given: none where the program passes.
struct Seen(BTreeMap<Option<Fault>, usize>);

impl Seen {
    fn new() -> Seen {
        Seen(BTreeMap::new())
    }

    fn check(&mut self, program: &Program) -> Answer {
        let answer = answer_program(program);
        let fault = order::check_program(program).err();
        *self.0.entry(fault.map(|found| found.fault)).or_insert(0) += 1;
        answer
    }

    fn count(&self, fault: Option<Fault>) -> usize {
        self.0.get(&fault).copied().unwrap_or(0)
    }

    /// At least a tenth passed, and each fault was seen so often.
    fn assert_various(&self, least: usize) {
        let all: usize = self.0.values().sum();
        assert!(10 * self.count(None) >= all, "{:?}", self.0);
        for fault in Fault::ALL {
            assert!(self.count(Some(fault)) >= least, "{fault:?}: {:?}", self.0);
        }
    }
}

/// Every program as it was made, changed at random, and with each fault, which
/// is reported where it was put.
#[test]
fn random_programs_are_answered_as_the_reference_does() {
    let mut random = Random::new(160);
    let mut seen = Seen::new();
    for _ in 0..150 {
        let program = ordered::any_program(&mut random);
        assert_eq!(seen.check(&program), Ok(()));
        for _ in 0..6 {
            let _ = seen.check(&changed_program(&mut random, &program));
        }
        for _ in 0..6 {
            let fault = random.pick(&Fault::ALL);
            if let Some((damaged, found)) = order_damage::apply(fault, &mut random, &program) {
                assert_eq!(seen.check(&damaged), Err(told(found.refusal())));
            }
        }
    }
    seen.assert_various(10);
}

/// Each of the functions of two programs that differ in one: pass one's fault
/// is reported before pass two's, in whatever functions they are.
#[test]
fn of_faults_in_two_functions_one_is_told() {
    let mut random = Random::new(161);
    let mut pairs = BTreeMap::new();
    for _ in 0..400 {
        let functions = 2 + random.below(5);
        let program = ordered::program(&mut random, functions, 10 * functions);
        let one = random.pick(&Fault::ALL);
        let two = random.pick(&Fault::ALL);
        let one = order_damage::apply(one, &mut random, &program);
        let two = order_damage::apply(two, &mut random, &program);
        let (Some((mut one, first)), Some((two, second))) = (one, two) else {
            continue;
        };
        let numbers = [first, second].map(|found| found.refusal().number);
        let differs = |k: &usize| two.functions[*k] != program.functions[*k];
        let k = (0..functions).find(differs).unwrap();
        if one.functions[k] != program.functions[k] {
            continue;
        }
        one.functions[k] = two.functions[k].clone();
        let told = number(answer_program(&one)) as u8;
        assert!(numbers.contains(&told));
        if numbers.iter().any(|&number| number <= 10) {
            assert!(told <= 10, "{numbers:?}: {told}");
        }
        *pairs
            .entry((numbers[0] <= 10, numbers[1] <= 10))
            .or_insert(0) += 1;
    }
    assert!(
        pairs.len() == 4 && pairs.values().all(|&count| count >= 10),
        "{pairs:?}"
    );
}

/// Names, types and order left to chance, in programs of every size.
#[test]
fn programs_in_prefix_form_are_answered_as_the_reference_does() {
    let mut random = Random::new(162);
    let mut seen = Seen::new();
    for _ in 0..400 {
        let _ = seen.check(&programs::any_program(&mut random));
        let functions = 1 + random.below(3);
        let nodes = functions + random.below(4);
        let _ = seen.check(&programs::program(&mut random, functions, nodes));
    }
    for fault in [
        Fault::VarNotBound,
        Fault::TreeExpected,
        Fault::NumberExpected,
    ] {
        assert!(seen.count(Some(fault)) >= 20, "{:?}", seen.0);
    }
}
