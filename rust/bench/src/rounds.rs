//! What the benchmarks share: rounds of several ways in turn, what they took,
//! programs, and trees.

#![forbid(unsafe_code)]

pub mod programs;
pub mod trees;

use std::time::Instant;

/// Goes each of some ways in turn, round after round, so that all meet the same
/// load of the machine: the seconds that each took, for each round.
pub fn in_turn<T: Copy, const N: usize>(
    rounds: usize,
    ways: [T; N],
    mut go: impl FnMut(T),
) -> Vec<[f64; N]> {
    let mut round = || ways.map(|way| seconds(|| go(way)));
    (0..rounds).map(|_| round()).collect()
}

/// The seconds that it takes.
pub fn seconds(go: impl FnOnce()) -> f64 {
    let start = Instant::now();
    go();
    start.elapsed().as_secs_f64()
}

/// How far numbers lie apart.
#[derive(Clone, Copy, Debug, PartialEq)]
pub struct Spread {
    pub least: f64,
    pub median: f64,
    pub greatest: f64,
}

impl Spread {
    /// Of at least one number.
    pub fn of(numbers: impl IntoIterator<Item = f64>) -> Spread {
        let mut sorted: Vec<f64> = numbers.into_iter().collect();
        sorted.sort_by(f64::total_cmp);
        Spread {
            least: sorted[0],
            median: sorted[sorted.len() / 2],
            greatest: sorted[sorted.len() - 1],
        }
    }
}

#[cfg(test)]
mod tests {
    use super::*;

    #[test]
    fn all_ways_are_gone_in_every_round() {
        let mut gone = Vec::new();
        let times = in_turn(2, ['a', 'b', 'c'], |way| gone.push(way));
        assert_eq!(times.len(), 2);
        assert_eq!(gone, ['a', 'b', 'c', 'a', 'b', 'c']);
    }

    #[test]
    fn the_spread_of_numbers_in_any_order() {
        let spread = Spread::of([3.0, 9.0, 1.0, 4.0, 2.0]);
        let expected = Spread {
            least: 1.0,
            median: 3.0,
            greatest: 9.0,
        };
        assert_eq!(spread, expected);
    }
}
