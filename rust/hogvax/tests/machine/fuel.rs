//! Less fuel than a run uses, and more.

use std::collections::BTreeMap;

use super::cases::short;
use super::*;

/// With fuel for fewer instructions a run gives 14: its units are the fuel,
/// and what it read and wrote opens what the whole run reads and writes.
#[test]
fn every_smaller_fuel_gives_14() {
    let mut lent = Lent::new();
    let mut runs = 0;
    for case in short(201, 400, 500) {
        let whole = lent.answer(&case);
        let mut before = lent.answer(&case.with_fuel(0));
        for fuel in 0..whole.units() {
            let gave = lent.answer(&case.with_fuel(fuel));
            let position = gave.read() as u64;
            let told = (gave.number, gave.position(), gave.units(), gave.word());
            assert_eq!(told, (14, position, fuel, 0), "{case:?}");
            assert!(gave.opens(&whole), "fuel {fuel}: {case:?}");
            let steps = [
                gave.read() - before.read(),
                gave.written() - before.written(),
            ];
            assert!([[0, 0], [1, 0], [4, 0], [0, 1], [0, 4]].contains(&steps));
            before = gave;
            runs += 1;
        }
    }
    assert!(runs > 10_000, "{runs} runs");
}

/// A run that stops for another reason than its fuel stops so with any larger
/// fuel: also with one whose low 32 bits are 0, and with the greatest.
#[test]
fn larger_fuels_change_nothing() {
    let mut lent = Lent::new();
    let mut seen = BTreeMap::new();
    for case in short(202, 2_000, 5_000) {
        let gave = lent.answer(&case);
        if gave.number == 14 {
            continue;
        }
        *seen.entry(gave.number).or_insert(0) += 1;
        let least = gave.units() + u64::from(gave.number != 0);
        for fuel in [least, least + 1, MUCH_FUEL, u64::MAX - 1, u64::MAX] {
            let same = lent.call(&case.with_fuel(fuel));
            assert_eq!(same, gave, "fuel {fuel}: {case:?}");
        }
    }
    println!("{seen:?}");
    assert!(seen.keys().eq(&[0, 15, 16, 17, 18, 19, 21]), "{seen:?}");
}
