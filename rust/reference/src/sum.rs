//! Sums of two numbers, which may leave the range.

/// N3: "21, sum out of range"
pub const SUM_OUT_OF_RANGE: u8 = 21;

/// The exact sum; none where it "lies outside −2147483648 to 2147483647".
pub fn exact_sum(left: i32, right: i32) -> Option<i32> {
    left.checked_add(right)
}

/// How often a sum was just the least number, and how often just the
/// greatest.
#[derive(Clone, Copy, Debug, Default, PartialEq, Eq)]
pub struct EndSums {
    pub least: u64,
    pub greatest: u64,
}

impl EndSums {
    pub fn count(&mut self, sum: i32) {
        self.least += u64::from(sum == i32::MIN);
        self.greatest += u64::from(sum == i32::MAX);
    }
}

#[cfg(test)]
mod tests {
    use super::*;
    use crate::generate::SPECIAL_LABELS;

    /// Against numbers of 64 bits, in which no sum of two leaves the range.
    #[test]
    fn sums_of_special_labels() {
        let mut seen = [0; 2];
        for left in SPECIAL_LABELS {
            for right in SPECIAL_LABELS {
                let sum = i64::from(left) + i64::from(right);
                let fits = (-2_147_483_648..=2_147_483_647).contains(&sum);
                assert_eq!(exact_sum(left, right), fits.then_some(sum as i32));
                seen[usize::from(fits)] += 1;
            }
        }
        assert!(seen.iter().all(|&count| count > 20), "{seen:?}");
    }

    #[test]
    fn sums_at_the_ends_of_the_range() {
        let (least, greatest) = (i32::MIN, i32::MAX);
        let pairs = [
            ((greatest, 0), Some(greatest)),
            ((greatest, 1), None),
            ((1, greatest), None),
            ((greatest - 1, 1), Some(greatest)),
            ((1 << 30, (1 << 30) - 1), Some(greatest)),
            ((1 << 30, 1 << 30), None),
            ((greatest, greatest), None),
            ((greatest, least), Some(-1)),
            ((least, greatest), Some(-1)),
            ((least, 0), Some(least)),
            ((least, -1), None),
            ((-1, least), None),
            ((least + 1, -1), Some(least)),
            ((-(1 << 30), -(1 << 30)), Some(least)),
            ((-(1 << 30), -(1 << 30) - 1), None),
            ((least, least), None),
        ];
        for ((left, right), sum) in pairs {
            assert_eq!(exact_sum(left, right), sum, "{left} {right}");
        }
    }

    #[test]
    fn sums_at_the_ends_are_counted() {
        let mut ends = EndSums::default();
        for sum in [0, i32::MAX, i32::MAX - 1, i32::MIN, i32::MIN + 1, i32::MAX] {
            ends.count(sum);
        }
        let expected = EndSums {
            least: 1,
            greatest: 2,
        };
        assert_eq!(ends, expected);
    }
}
