//! Small trees with every fuel and every length of the output: a run may stop
//! at each of its instructions.

use std::collections::BTreeMap;

use reference::{Random, Tree};

use super::checked::{small_and_large, worked, ROOM};
use super::*;

/// With less fuel than a run takes it is 14, with as many units as there is
/// fuel; a refused one takes a unit more than it performs.
#[test]
fn every_fuel() {
    let random = &mut Random::new(382);
    let mut lent = Lent::exact();
    let mut seen = BTreeMap::new();
    let trees = small_and_large(random);
    for program in worked() {
        for tokens in trees.iter().map(Tree::tokens) {
            let whole = program.answer(&mut lent, &tokens, u64::MAX, ROOM);
            let ran = whole.ran();
            let least = ran.units + u64::from(ran.refused.is_some());
            for fuel in 0..=ran.units + 2 {
                let gave = program.answer(&mut lent, &tokens, fuel, ran.written + 1);
                if fuel < least {
                    assert_eq!((gave.number, gave.ran().units), (14, fuel));
                } else {
                    assert_eq!(gave.ran(), ran);
                }
                *seen.entry(gave.number).or_insert(0) += 1;
            }
        }
    }
    println!("{seen:?}");
    assert!(seen.keys().eq(&[0, 14, 21]), "{seen:?}");
}

/// With less room than a run needs it is 17, with as many free bytes as are
/// too few for a tag or a label.
#[test]
fn every_length_of_the_output() {
    let random = &mut Random::new(383);
    let mut lent = Lent::exact();
    let mut free = [0; 4];
    let trees = small_and_large(random);
    for program in worked() {
        for tokens in trees.iter().map(Tree::tokens) {
            let ran = program.answer(&mut lent, &tokens, u64::MAX, ROOM).ran();
            for room in 0..=ran.written + 1 {
                let gave = program.answer(&mut lent, &tokens, u64::MAX, room);
                if room < ran.written {
                    assert_eq!(gave.number, 17);
                    free[room - gave.ran().written] += 1;
                } else {
                    assert_eq!(gave.ran(), ran);
                }
            }
        }
    }
    println!("{free:?}");
    assert!(free.iter().all(|&count| count > 100), "{free:?}");
}
