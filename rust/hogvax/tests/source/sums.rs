//! Sums at the ends of the range, just inside and just outside, in both runs.

use std::collections::BTreeMap;

use reference::generate::sums::program_and_tree;

use super::*;

/// More bytes than a result here has.
const ROOM: usize = 10_000;

/// What is to come up: 21 in both runs, and the last numbers that are in range.
const SEEN: [&str; 3] = ["out of range", "2147483647", "-2147483648"];

/// The source run is as the reference's, and with less fuel it is refused with 14.
/// The stream run is refused with 21 where it is, at the bytes read, with fuel for
/// one instruction more than it performed, and with less it is refused with 14.
#[test]
fn sums_at_the_ends_of_the_range() {
    let mut random = Random::new(460);
    let (mut lent, mut seen) = (Lent::new(), BTreeMap::new());
    for _ in times(500, 4_000) {
        let (program, tree) = program_and_tree(&mut random);
        let (file, tokens) = (file(&program), tree.tokens());
        let case = SourceCase::new(&file, &tokens, MODERATE, ROOM);
        let gave = lent.answer(&case);
        let begun = gave.slots[1];
        if gave.number != 21 {
            assert_eq!(gave.number, 0, "{program:?}");
            let number = (gave.slots[3] as i32).to_string();
            *seen.entry(number).or_insert(0) += 1;
            continue;
        }
        let exact = lent.call_into(&case.with_fuel(begun));
        assert_eq!(exact, gave, "{program:?}");
        let less = lent.call_into(&case.with_fuel(begun - 1));
        assert_eq!((less.number, less.slots), (14, refused_slots(0, begun - 1)));
        assert_stream_is_refused(&mut lent, &file, &tokens);
        *seen.entry(SEEN[0].to_owned()).or_insert(0) += 1;
    }
    for branch in SEEN {
        let count = seen.get(branch).copied().unwrap_or(0);
        println!("{branch}: {count}");
        assert!(count > 20, "{branch}: {count}");
    }
}

fn assert_stream_is_refused(lent: &mut Lent, file: &[u8], tokens: &[u8]) {
    let mut run = |fuel| {
        let mut output = [0; ROOM];
        hogvax::run_in(&mut lent.work, file, tokens, fuel, &mut output)
    };
    let ran = run(u64::MAX);
    let refused = ran.refused.expect("a refusal");
    assert_eq!((refused.number, refused.position), (21, ran.read as u64));
    assert_eq!(run(ran.units + 1), ran);
    let less = run(ran.units);
    assert_eq!(less.refused.map(|refused| refused.number), Some(14));
    assert_eq!(
        (less.units, less.read, less.written),
        (ran.units, ran.read, ran.written)
    );
}
