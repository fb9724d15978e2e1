//! Demand 3, sentence by sentence: programs and trees made at random, and
//! known evaluations.

mod meaning;
mod seen;
mod trial;

use reference::evaluate::known;
use reference::generate::evaluated::{deep_tree, small_tree};
use reference::{check_program, Random, Tree};

use super::programs::{any_program, samples};
use super::*;
use seen::Seen;
use trial::Trial;

/// So many programs are made at random.
const PROGRAMS: usize = if cfg!(debug_assertions) { 40 } else { 150 };

/// Each that passes is run on so many trees.
const TREES: usize = 3;

/// Most are small; some are too deep for most programs.
fn any_tree(random: &mut Random) -> Tree {
    match random.below(20) {
        0 => deep_tree(random, 1_100),
        _ => small_tree(random),
    }
}

/// The library refuses it, as the reference does.
fn is_refused(program: &Program) -> bool {
    let refused = hogvax::translate(&file(program)).is_err();
    assert_eq!(refused, check_program(program).is_err(), "{program:?}");
    refused
}

/// Of the programs at least a tenth pass the checks.
#[test]
fn demand_3_holds_of_random_programs() {
    let mut random = Random::new(370);
    let (mut lent, mut seen) = (Lent::new(), Seen::default());
    let (mut passed, mut long) = (0, 0);
    let mut programs: Vec<Program> = (0..PROGRAMS).map(|_| any_program(&mut random)).collect();
    programs.extend(samples());
    for program in &programs {
        if is_refused(program) {
            seen.see("program refused", true);
            continue;
        }
        passed += 1;
        for _ in 0..TREES {
            match Trial::new(program, &any_tree(&mut random)) {
                None => long += 1,
                Some(trial) => trial.check_all(&mut lent, &mut random, &mut seen),
            }
        }
    }
    println!("{passed} of {} passed, {long} too long", programs.len());
    assert!(10 * passed >= programs.len(), "{passed} passed");
    assert!(10 * long <= passed, "{long} too long");
    seen.assert_all();
}

/// Those that are too long to be followed are left out.
#[test]
fn demand_3_holds_of_known_evaluations() {
    let mut random = Random::new(371);
    let (mut lent, mut seen) = (Lent::new(), Seen::default());
    let mut trials = 0;
    for known in known::in_order() {
        if let Some(trial) = Trial::new(&known.program, &known.tree) {
            trial.check_all(&mut lent, &mut random, &mut seen);
            trials += 1;
        }
    }
    assert!(trials > 20, "{trials} trials");
}
