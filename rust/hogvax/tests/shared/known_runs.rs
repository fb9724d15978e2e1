//! Runs of programs with known answers, and what is tested of each.

use std::collections::BTreeMap;

use crate::run_call::{assert_gives_alone, Gave, Lent, RunCall};

/// A run and all that it gives.
pub struct Known<C, const N: usize> {
    /// What it shows.
    pub name: String,
    pub case: C,
    pub gave: Gave<N>,
    /// The number that the program gives.
    pub number: i32,
}

/// How often each number was given, 0 or a refusal's.
pub type Counts = BTreeMap<u32, usize>;

/// The library gives what is known.
pub fn assert_answers<const N: usize, C: RunCall<N>>(
    lent: &mut Lent,
    all: &[Known<C, N>],
) -> Counts {
    let mut seen = Counts::new();
    for known in all {
        lent.assert_gives(&known.name, &known.case, &known.gave);
        *seen.entry(known.gave.number).or_default() += 1;
    }
    seen
}

/// So it does in a new work space for each run. 13 does not come there.
pub fn assert_answers_alone<const N: usize, C: RunCall<N>>(all: &[Known<C, N>]) {
    for known in all.iter().filter(|known| known.gave.number != 13) {
        assert_gives_alone(&known.name, &known.case, &known.gave);
    }
}

/// The number's slot is its sign extension: "Sum of leaves 2147483647 and 1:
/// −2147483648."
pub fn assert_sign_extended<const N: usize, C: RunCall<N>>(lent: &mut Lent, all: &[Known<C, N>]) {
    let mut seen = [0; 2];
    for known in all {
        let (name, number) = (&known.name, known.number);
        let word = lent.call_into(&known.case).slots[C::WRITTEN + 1];
        assert_eq!(word as i64, i64::from(number), "{name}");
        assert_eq!(word >> 63 == 1, number < 0, "{name}");
        seen[usize::from(number < 0)] += 1;
    }
    assert!(seen.iter().all(|&count| count > 0), "{seen:?}");
}

/// The first run of each number that is given.
pub fn one_of_each<const N: usize, C>(all: Vec<Known<C, N>>) -> Vec<(C, Gave<N>)> {
    let mut firsts: Vec<(C, Gave<N>)> = Vec::new();
    for known in all {
        if firsts
            .iter()
            .all(|(_, gave)| gave.number != known.gave.number)
        {
            firsts.push((known.case, known.gave));
        }
    }
    firsts
}
