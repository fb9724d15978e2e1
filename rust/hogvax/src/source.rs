//! The source run.

use std::fmt;

use crate::{ffi, write_start, Refused, WorkSpace};

/// How many slots of an answer a source run fills.
const SLOTS: usize = 6;

/// What a source run answers. As text it is one line: `ended` or the refusal,
/// then the counts, the number, and the tree's tips and depth.
#[derive(Clone, Copy, Debug, PartialEq, Eq)]
#[must_use = "the run may have been refused"]
pub struct Sourced {
    /// Why there is no result; `None` if the run ended.
    pub refused: Option<Refused>,
    /// Expressions begun.
    pub begun: u64,
    /// Bytes of the output written, from its start on; 0 on a refusal.
    pub written: usize,
    /// The number that the program gave; 0 if it gave a tree or was refused.
    pub number: i32,
    /// The leaves of the tree that was evaluated; 0 on a refusal.
    pub tips: usize,
    /// The nodes above the deepest leaf of the tree that was evaluated; 0 on a
    /// refusal.
    pub depth: usize,
}

impl Sourced {
    /// What a call reported by a number, 0 or the refusal's, and in its slots.
    fn told(number: u32, answer: [u64; SLOTS]) -> Sourced {
        let [position, begun, written, word, tips, depth] = answer;
        Sourced {
            refused: Refused::told(number, position),
            begun,
            written: written as usize,
            // 32 bits, sign-extended to 64.
            number: word as i32,
            tips: tips as usize,
            depth: depth as usize,
        }
    }
}

impl fmt::Display for Sourced {
    fn fmt(&self, f: &mut fmt::Formatter<'_>) -> fmt::Result {
        let Sourced {
            refused,
            begun,
            written,
            number,
            tips,
            depth,
        } = self;
        write_start(*refused, f)?;
        write!(f, " begun {begun} written {written} number {number}")?;
        write!(f, " tips {tips} depth {depth}")
    }
}

/// Computes what the program of this file means on the tree that begins
/// `input`: its evaluation on the tree itself, expression by expression. One
/// unit of fuel is one expression begun. Bytes after the tree are not looked
/// at.
///
/// A program need not take its trees in order: one that
/// [`check`](crate::check) refuses with 11 or 12 has a source run, too. It is
/// refused, in this order:
///
/// - 1 to 7, the file is no program's;
/// - 8 to 10, a type is wrong, a name is not bound, or there are too many
///   words;
/// - 15, 16 and 20, no tree begins `input`, as [`tree`](crate::tree) says;
/// - 14, the fuel is used up and an expression is to be begun; or 18, a call is
///   to be opened after its arguments and 1,024 are open, the first one
///   counted; or 21, an Add has its two numbers and their sum lies outside
///   -2147483648 to 2147483647; whichever the evaluation meets first;
/// - 17, the evaluation ended and `output` is shorter than the result.
///
/// The position of 14, 17 and 18 is 0, that of 21 the record of the Add, and the
/// expressions begun are counted. The other refusals have their own position, and
/// 0 in every count. 13 does not come, since the run has its own work space.
///
/// Tips and depth are those of the tree that begins `input`, as
/// [`tree`](crate::tree) gives them, where the run ended. On every refusal they are
/// 0, also where a tree begins `input`.
///
/// A tree goes to the start of `output` as tokens, and the rest of `output` is
/// left as it is. A number and a refusal leave all of it as it is.
///
/// ```
/// // Swap: Case 0, Leaf, Var 0, Node, Call 0 on 2, Call 0 on 1. Its
/// // trees are not in order: it takes the right one first.
/// let records = [
///     [1, 1, 6, 0, 0, 0, 0, 0], // 0: header, 1 function and 6 nodes
///     [1, 0, 6, 0, 0, 0, 0, 0], // 1: function 0, a tree
///     [7, 0, 0, 0, 0, 0, 0, 0], // 2: Case 0
///     [5, 0, 0, 0, 0, 0, 0, 0], // 3: Leaf
///     [1, 0, 0, 0, 0, 0, 0, 0], // 4: Var 0
///     [6, 0, 0, 0, 0, 0, 0, 0], // 5: Node
///     [8, 2, 0, 0, 0, 0, 0, 0], // 6: Call 0 on 2
///     [8, 1, 0, 0, 0, 0, 0, 0], // 7: Call 0 on 1
/// ]
/// .concat();
/// let file = hogvax::pack(&records).unwrap();
/// // Leaves 5 and 7 under a node, and a byte after the tree.
/// let input = [2, 1, 5, 0, 0, 0, 1, 7, 0, 0, 0, 99];
///
/// let mut output = [9; 12];
/// let sourced = hogvax::source(&file, &input, 10, &mut output);
/// assert_eq!(sourced.refused, None);
/// let line = "ended begun 10 written 11 number 0 tips 2 depth 1";
/// assert_eq!(sourced.to_string(), line);
/// assert_eq!(output, [2, 1, 7, 0, 0, 0, 1, 5, 0, 0, 0, 9]);
///
/// let mut output = [9; 12];
/// let sourced = hogvax::source(&file, &input, 9, &mut output);
/// let line = "refused 14 0 begun 9 written 0 number 0 tips 0 depth 0";
/// assert_eq!(sourced.to_string(), line);
/// let sourced = hogvax::source(&file, &input, 10, &mut output[..10]);
/// let line = "refused 17 0 begun 10 written 0 number 0 tips 0 depth 0";
/// assert_eq!(sourced.to_string(), line);
/// let sourced = hogvax::source(&file, &input[..8], 0, &mut output);
/// let line = "refused 15 7 begun 0 written 0 number 0 tips 0 depth 0";
/// assert_eq!(sourced.to_string(), line);
/// assert_eq!(output, [9; 12]);
/// ```
pub fn source(file: &[u8], input: &[u8], fuel: u64, output: &mut [u8]) -> Sourced {
    source_in(&mut WorkSpace::new(), file, input, fuel, output)
}

/// As [`source`], in a work space that may be used again, so that no run after
/// the first allocates one.
///
/// ```
/// // Sum: Case 0, Var 0, Add, Call 0 on 1, Call 0 on 2.
/// let records = [
///     [1, 1, 5, 0, 0, 0, 0, 0], // 0: header, 1 function and 5 nodes
///     [0, 0, 5, 0, 0, 0, 0, 0], // 1: function 0, a number
///     [7, 0, 0, 0, 0, 0, 0, 0], // 2: Case 0
///     [1, 0, 0, 0, 0, 0, 0, 0], // 3: Var 0
///     [2, 0, 0, 0, 0, 0, 0, 0], // 4: Add
///     [8, 1, 0, 0, 0, 0, 0, 0], // 5: Call 0 on 1
///     [8, 2, 0, 0, 0, 0, 0, 0], // 6: Call 0 on 2
/// ]
/// .concat();
/// let file = hogvax::pack(&records).unwrap();
/// // Leaves 2147483647 and 1 under a node.
/// let input = [2, 1, 0xff, 0xff, 0xff, 0x7f, 1, 1, 0, 0, 0];
///
/// let mut work = hogvax::WorkSpace::new();
/// let sourced = hogvax::source_in(&mut work, &file, &input[6..], 1_000, &mut []);
/// let line = "ended begun 2 written 0 number 1 tips 1 depth 0";
/// assert_eq!(sourced.to_string(), line);
/// let ran = hogvax::run_in(&mut work, &file, &input[6..], 1_000, &mut []);
/// assert_eq!(ran.number, sourced.number);
/// // The sum of both is 2147483648, which is out of range: the refusal is at the
/// // record of the Add, and in the stream run at the bytes read.
/// let sourced = hogvax::source_in(&mut work, &file, &input, 1_000, &mut []);
/// let line = "refused 21 4 begun 8 written 0 number 0 tips 0 depth 0";
/// assert_eq!(sourced.to_string(), line);
/// let ran = hogvax::run_in(&mut work, &file, &input, 1_000, &mut []);
/// assert_eq!(ran.to_string(), "refused 21 11 units 15 read 11 written 0 number 0");
/// ```
pub fn source_in(
    work: &mut WorkSpace,
    file: &[u8],
    input: &[u8],
    fuel: u64,
    output: &mut [u8],
) -> Sourced {
    let WorkSpace {
        values, returns, ..
    } = work;
    let mut answer = [0; SLOTS];
    let number = source_into(file, input, fuel, output, values, returns, &mut answer);
    Sourced::told(number, answer)
}

/// The call that [`source`] makes, as the static library exports it: 0, or the
/// refusal's number; with the refusal's position (0 if there is none), the
/// expressions begun, the bytes written, the number, sign-extended to 64 bits,
/// and the tree's tips and depth in `answer`.
///
/// After 1 to 10 and before all other refusals of [`source`] comes 13 at 0,
/// with 0 in every count: there are fewer than 16,384 `values` or fewer than
/// 2,048 `returns`, however few would do. Refused with 1 to 13, or with 15, 16
/// or 20, the call leaves these two as they are; after a run they are
/// unspecified.
///
/// Slots of `answer` from 6 on are left as they are. With fewer than 6 slots
/// the number is 13, and all lent slices are left as they are.
///
/// ```
/// // One function, which gives a number: Case 0, Const -3, Call 0 on 0.
/// let records = [
///     [1, 1, 3, 0, 0, 0, 0, 0],
///     [0, 0, 3, 0, 0, 0, 0, 0],
///     [7, 0, 0, 0, 0, 0, 0, 0],
///     [0, 0, 0, 0, 253, 255, 255, 255],
///     [8, 0, 0, 0, 0, 0, 0, 0],
/// ]
/// .concat();
/// let file = hogvax::pack(&records).unwrap();
/// // Leaves 5 and 7 under a node.
/// let node = [2, 1, 5, 0, 0, 0, 1, 7, 0, 0, 0];
/// let (mut values, mut returns) = ([0; 16_384], [0; 2_048]);
/// let mut answer = [9; 7];
/// let mut source = |input: &[u8], values: &mut [u32], answer: &mut [u64]| {
///     hogvax::source_into(&file, input, 9_999, &mut [], values, &mut returns, answer)
/// };
///
/// assert_eq!(source(&[], &mut values[1..], &mut answer), 13);
/// assert_eq!(answer, [0, 0, 0, 0, 0, 0, 9]);
/// assert_eq!(source(&[2, 3], &mut values, &mut answer), 16);
/// assert_eq!(answer, [1, 0, 0, 0, 0, 0, 9]);
/// assert_eq!(source(&node, &mut values, &mut answer[..5]), 13);
/// assert_eq!(answer, [1, 0, 0, 0, 0, 0, 9]);
/// assert_eq!(source(&node, &mut values, &mut answer), 18);
/// assert_eq!(answer, [0, 2_048, 0, 0, 0, 0, 9]);
/// assert_eq!(source(&node[6..], &mut values, &mut answer), 0);
/// assert_eq!(answer, [0, 2, 0, u64::MAX - 2, 1, 0, 9]);
/// ```
#[doc(hidden)]
pub fn source_into(
    file: &[u8],
    input: &[u8],
    fuel: u64,
    output: &mut [u8],
    values: &mut [u32],
    returns: &mut [u64],
    answer: &mut [u64],
) -> u32 {
    ffi::source(file, input, fuel, output, values, returns, answer)
}

#[cfg(test)]
mod tests {
    use super::*;

    #[test]
    fn a_run_that_ended_is_told() {
        let sourced = Sourced::told(0, [0, 14, 11, 12, 7, 3]);
        assert_eq!(
            sourced,
            Sourced {
                refused: None,
                begun: 14,
                written: 11,
                number: 12,
                tips: 7,
                depth: 3,
            }
        );
        let line = "ended begun 14 written 11 number 12 tips 7 depth 3";
        assert_eq!(sourced.to_string(), line);
    }

    #[test]
    fn a_refusal_is_reported_with_its_position() {
        let sourced = Sourced::told(9, [5, 0, 0, 0, 0, 0]);
        let (number, position) = (9, 5);
        assert_eq!(sourced.refused, Some(Refused { number, position }));
        let line = "refused 9 5 begun 0 written 0 number 0 tips 0 depth 0";
        assert_eq!(sourced.to_string(), line);
    }

    #[test]
    fn the_number_is_signed() {
        for (word, number) in [
            (0, "0"),
            (1, "1"),
            (0x7fff_ffff, "2147483647"),
            (0xffff_ffff_8000_0000, "-2147483648"),
            (u64::MAX, "-1"),
        ] {
            let line = Sourced::told(0, [0, 1, 0, word, 2, 1]).to_string();
            let told = format!("ended begun 1 written 0 number {number} tips 2 depth 1");
            assert_eq!(line, told);
        }
    }

    #[test]
    fn expressions_begun_take_64_bits() {
        let line = Sourced::told(14, [0, u64::MAX, 0, 0, 0, 0]).to_string();
        let told = "refused 14 0 begun 18446744073709551615 written 0 number 0 tips 0 depth 0";
        assert_eq!(line, told);
    }
}
