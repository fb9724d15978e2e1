//! The rows before the two passes: damaged files, and files of any bytes.

use reference::generate::{self, ordered, FileDamage, RecordDamage};
use reference::translate::known;
use reference::Random;

use super::*;

/// Files of programs that are translated, and of such as a pass refuses.
fn some_files(random: &mut Random) -> Vec<Vec<u8>> {
    let known = known::all().into_iter();
    let passes = known.filter(|known| number_of(known) == 0 || number_of(known) > 7);
    let mut files: Vec<Vec<u8>> = passes.map(|known| known.file).collect();
    for functions in [1, 2, 5, 32] {
        files.push(file(&ordered::program(random, functions, 100)));
    }
    files
}

fn number_of(known: &known::Known) -> u8 {
    known
        .answer
        .as_ref()
        .map_or_else(|refusal| refusal.number, |_| 0)
}

/// Whatever the passes say of the program.
#[test]
fn earlier_rows_are_told_first() {
    let mut random = Random::new(310);
    let mut translate = Checked::new(&TRANSLATE);
    for file in some_files(&mut random) {
        for damage in FileDamage::ALL {
            if let Some((damaged, refusal)) = damage.apply(&mut random, &file) {
                translate.check_refused(&damaged, refusal);
            }
        }
        let records = hogvax::unpack(&file).unwrap();
        for damage in RecordDamage::ALL {
            if let Some((damaged, refusal)) = damage.apply(&mut random, &records) {
                translate.check_refused(&lay_out(&damaged), refusal);
            }
        }
    }
    translate.assert_seen(&[1, 2, 3, 4, 5, 6, 7], 20);
}

#[test]
fn damaged_files_are_answered_as_the_reference_does() {
    let mut random = Random::new(311);
    let mut translate = Checked::new(&TRANSLATE);
    for file in some_files(&mut random) {
        for _ in 0..60 {
            translate.check(&generate::damaged_file(&mut random, &file));
        }
    }
    translate.assert_all_seen(1);
}

#[test]
fn files_of_any_bytes_are_answered_as_the_reference_does() {
    let mut random = Random::new(312);
    let mut translate = Checked::new(&TRANSLATE);
    for _ in 0..300 {
        let length = random.pick(&[0, 1, 511, 512, 513, 1_024, 8_704, 8_705, 9_216]);
        let mut file: Vec<u8> = (0..length).map(|_| random.byte()).collect();
        translate.check(&file);
        reference::mend_checks(&mut file);
        translate.check(&file);
    }
    translate.assert_seen(&[1, 2, 3], 50);
}
