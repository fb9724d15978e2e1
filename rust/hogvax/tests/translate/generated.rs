//! Programs made at random, right ones and others, and every short one.

use reference::generate::Alphabet;
use reference::generate::{changed_program, order_damage, ordered, program_shapes, programs};
use reference::{assemble, check_program, translate_program, Fault, Random};

use super::*;

/// Every program as it was made, changed at random, and with each fault, which
/// is reported where it was put. At least a tenth pass.
#[test]
fn random_programs_have_the_references_code() {
    let mut random = Random::new(300);
    let mut translate = Checked::new(&TRANSLATE);
    let mut all = 0;
    for _ in 0..200 {
        let program = ordered::any_program(&mut random);
        assert!(translate.answer(&file(&program)).is_ok());
        for _ in 0..4 {
            let changed = changed_program(&mut random, &program);
            translate.check(&file(&changed));
        }
        let fault = random.pick(&Fault::ALL);
        if let Some((damaged, found)) = order_damage::apply(fault, &mut random, &program) {
            translate.check_refused(&file(&damaged), found.refusal());
        }
        all += 6;
    }
    assert!(10 * translate.seen[0] >= all, "{:?}", translate.seen);
    translate.assert_seen(&OF_PROGRAMS, 5);
}

/// From one node to the most, of one function and of all 32.
#[test]
fn programs_of_every_size() {
    let mut random = Random::new(301);
    let mut translate = Checked::new(&TRANSLATE);
    for functions in 1..=32 {
        for nodes in [1, 2, 4, 8, 16, 32].map(|each| each * functions) {
            let program = ordered::program(&mut random, functions, nodes);
            assert!(translate.answer(&file(&program)).is_ok());
        }
    }
    translate.assert_seen(&[0, 13], 192);
}

/// Names, types and order left to chance.
#[test]
fn programs_in_prefix_form_are_answered_as_the_reference_does() {
    let mut random = Random::new(302);
    let mut translate = Checked::new(&TRANSLATE);
    for _ in 0..400 {
        translate.check(&file(&programs::any_program(&mut random)));
        let functions = 1 + random.below(3);
        let nodes = functions + random.below(4);
        translate.check(&file(&programs::program(&mut random, functions, nodes)));
    }
    for program in program_shapes::extremes(&mut random) {
        translate.check(&file(&program));
    }
    let seen = translate.seen;
    assert!(seen[8] >= 20 && seen[9] >= 20, "{seen:?}");
}

/// Every program of these records with a body of so many, or fewer, that
/// passes both passes: how many there are.
fn translated(alphabet: &Alphabet, most: usize) -> usize {
    let mut count = 0;
    for length in 1..=most {
        for tree_valued in [false, true] {
            alphabet.every_program(length, tree_valued, &mut |program| {
                if check_program(program).is_ok() {
                    let code = assemble(&translate_program(program));
                    let same = hogvax::translate(&file(program)) == Ok(code);
                    assert!(same, "{:?}", program.functions);
                    count += 1;
                }
            });
        }
    }
    count
}

#[test]
fn every_body_of_up_to_six_records() {
    assert_eq!(translated(&Alphabet::SIX_RECORDS, 6), 147);
}

/// With a second function, which takes a number.
#[test]
fn every_body_of_up_to_six_records_with_arguments() {
    assert_eq!(translated(&Alphabet::WITH_ARGUMENTS, 6), 333);
}
