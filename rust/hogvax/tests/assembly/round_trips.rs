//! Texts of program files, read again.

use hogvax::assembly::{misplaced, read, show, Numbers};
use reference::generate::program_shapes;

use super::*;

/// The program file becomes a text, and this the same file again. Lines of the
/// text stand where they seem to.
fn assert_round_trip(file: &[u8]) {
    for numbers in [Numbers::Shown, Numbers::Bare] {
        let shown = show(file, numbers).unwrap();
        let text = read(shown.as_bytes()).unwrap();
        assert!(
            hogvax::pack(&text.records).as_deref() == Ok(file),
            "{shown}"
        );
        assert_eq!(misplaced(&text), None, "{shown}");
    }
}

#[test]
fn every_sample_is_the_same_again() {
    for name in SAMPLES {
        assert_round_trip(&sample(&format!("{name}.program")));
    }
}

/// Programs that pass, and programs with each refusal of pass one and two.
#[test]
fn random_programs_are_the_same_again() {
    let mut random = Random::new(330);
    let mut seen = [0; 13];
    for _ in 0..2_000 {
        let file = hogvax::pack(&any_program(&mut random).records()).unwrap();
        assert_round_trip(&file);
        let number = hogvax::check(&file).map_or_else(|refused| refused.number, |()| 0);
        seen[number as usize] += 1;
    }
    for number in [0, 8, 9, 10, 11, 12] {
        assert!(seen[number] > 10, "{seen:?}");
    }
}

/// The least and the most of everything, expressions as deep as they are
/// long, and every number of blocks.
#[test]
fn programs_at_the_limits_are_the_same_again() {
    let mut longest = 0;
    for program in program_shapes::extremes(&mut Random::new(331)) {
        let file = hogvax::pack(&program.records()).unwrap();
        assert_round_trip(&file);
        longest = longest.max(file.len());
    }
    assert_eq!(longest, hogvax::LONGEST_FILE);
}
