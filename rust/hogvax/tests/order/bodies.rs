//! Every short program: the library, the walk and all splits.

use reference::generate::Alphabet;

use super::*;

/// Every program with a body of so many records, or fewer: how many there
/// are. The library and the reference's walk answer alike; where pass one is
/// passed, all splits say the same.
fn check_all(
    alphabet: &Alphabet,
    lengths: impl IntoIterator<Item = usize>,
    trees: &[bool],
) -> usize {
    let mut count = 0;
    for length in lengths {
        for &tree_valued in trees {
            alphabet.every_program(length, tree_valued, &mut |program| {
                count += 1;
                let found = order::check_program(program);
                let refusal = found.map_err(order::Found::refusal);
                let answer = hogvax::check_records(&program.records());
                assert_eq!(answer, refusal.map_err(told), "{:?}", program.functions);
                if ![8, 9, 10].contains(&number(answer)) {
                    assert!(order::ways_agree(program), "{:?}", program.functions);
                }
            });
        }
    }
    count
}

/// 1,150,048 programs.
#[test]
fn bodies_of_up_to_six_records() {
    let count = check_all(&Alphabet::SIX_RECORDS, 1..=6, &[false, true]);
    assert_eq!(count, 1_150_048);
}

/// With a second function, which takes a number: 124,595 programs.
#[test]
fn bodies_of_up_to_six_records_with_arguments() {
    let alphabet = Alphabet {
        trees: false,
        ..Alphabet::WITH_ARGUMENTS
    };
    assert_eq!(check_all(&alphabet, 1..=6, &[false]), 124_595);
}

/// The same with trees: 47,410 programs.
#[test]
fn bodies_of_up_to_five_records_with_arguments() {
    let count = check_all(&Alphabet::WITH_ARGUMENTS, 1..=5, &[false, true]);
    assert_eq!(count, 47_410);
}
