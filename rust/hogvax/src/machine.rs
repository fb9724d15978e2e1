//! The stream run.

use std::fmt;

use crate::{ffi, write_start, Refused};

/// The bytes of the longest code: 4,128 instructions, 8 bytes each. What
/// comes after them is never performed.
pub const LONGEST_CODE: usize = 8 * 4_128;

/// The words of a run's value stack.
const VALUE_WORDS: usize = 16_384;

/// The words of a run's return places, two for each of 1,024 open calls.
const RETURN_WORDS: usize = 2 * 1_024;

/// What a stream run answers. As text it is one line: `ended` or the refusal,
/// then the counts and the number.
#[derive(Clone, Copy, Debug, PartialEq, Eq)]
#[must_use = "the run may have been refused"]
pub struct Ran {
    /// Why the run stopped early; `None` if it ended.
    pub refused: Option<Refused>,
    /// Instructions performed.
    pub units: u64,
    /// Bytes of the input read, from its start on.
    pub read: usize,
    /// Bytes of the output written, from its start on.
    pub written: usize,
    /// The number that the code gave; 0 if it gave none or was refused.
    pub number: i32,
}

impl Ran {
    /// What a call reported by a number, 0 or the refusal's, and in five slots.
    pub(crate) fn told(number: u32, answer: [u64; 5]) -> Ran {
        let [position, units, read, written, word] = answer;
        Ran {
            refused: Refused::told(number, position),
            units,
            read: read as usize,
            written: written as usize,
            // 32 bits, sign-extended to 64.
            number: word as i32,
        }
    }
}

impl fmt::Display for Ran {
    fn fmt(&self, f: &mut fmt::Formatter<'_>) -> fmt::Result {
        let Ran {
            refused,
            units,
            read,
            written,
            number,
        } = self;
        write_start(*refused, f)?;
        write!(
            f,
            " units {units} read {read} written {written} number {number}"
        )
    }
}

/// The work space of a run, about 112 KiB, with room for the longest code. It
/// may serve one run after another, stream runs and source runs alike: what a
/// run leaves there does not matter to the next.
pub struct WorkSpace {
    pub(crate) code: Vec<u8>,
    pub(crate) values: Vec<u32>,
    pub(crate) returns: Vec<u64>,
}

impl WorkSpace {
    pub fn new() -> WorkSpace {
        WorkSpace {
            code: vec![0; LONGEST_CODE],
            values: vec![0; VALUE_WORDS],
            returns: vec![0; RETURN_WORDS],
        }
    }
}

impl Default for WorkSpace {
    fn default() -> WorkSpace {
        WorkSpace::new()
    }
}

/// Runs code, 8 bytes an instruction, from address 0 over the tokens of
/// `input`. One unit of fuel is one instruction performed. The run ends at the
/// return of its first frame, or is refused at an instruction, which then
/// counts nothing and changes nothing:
///
/// - 14, the fuel is used up, which is looked at first;
/// - 19, the instruction can't be performed: its opcode is above 13, its
///   address is above 4,127 or has no 8 whole bytes of code, a return's byte 1
///   is not 0 or 1, words are missing above the frame's base, or more than
///   16,384 would stand;
/// - 15, the input ended: a tag or a whole label is to be read and is not
///   there;
/// - 16, a tag is to be read and the byte is not 1 or 2;
/// - 17, `output` has no room for the tag or label to be written;
/// - 18, a call is to be made and 1,024 are open, the first frame counted;
/// - 21, two words are to be added and their sum lies outside -2147483648 to
///   2147483647.
///
/// The position of each is the bytes read. Any bytes may be run as code, and any
/// be its input. 13 does not come, since the run has its own work space.
///
/// What the run wrote stays at the start of `output`, also if it was refused;
/// the rest of `output` is left as it is.
///
/// ```
/// // Grow, which adds 1 to every label.
/// let code = [
///     [10, 0, 9, 0, 0, 0, 0, 0], // 0: read tag, a node goes to 9
///     [11, 0, 0, 0, 0, 0, 0, 0], // 1: read number
///     [7, 0, 0, 0, 0, 0, 0, 0],  // 2: leaf tag
///     [1, 0, 0, 0, 0, 0, 0, 0],  // 3: get word 0
///     [0, 0, 0, 0, 1, 0, 0, 0],  // 4: push 1
///     [2, 0, 0, 0, 0, 0, 0, 0],  // 5: add
///     [9, 0, 0, 0, 0, 0, 0, 0],  // 6: write number
///     [6, 0, 0, 0, 0, 0, 0, 0],  // 7: drop
///     [4, 0, 12, 0, 0, 0, 0, 0], // 8: jump to 12
///     [8, 0, 0, 0, 0, 0, 0, 0],  // 9: node tag
///     [12, 0, 0, 0, 0, 0, 0, 0], // 10: call 0
///     [12, 0, 0, 0, 0, 0, 0, 0], // 11: call 0
///     [13, 0, 0, 0, 0, 0, 0, 0], // 12: return
/// ]
/// .concat();
/// // Leaves 5 and 7 under a node.
/// let tree = [2, 1, 5, 0, 0, 0, 1, 7, 0, 0, 0];
///
/// let mut output = [9; 12];
/// let ran = hogvax::perform(&code, &tree, 25, &mut output);
/// assert_eq!(ran.refused, None);
/// assert_eq!(ran.to_string(), "ended units 25 read 11 written 11 number 0");
/// assert_eq!(output, [2, 1, 6, 0, 0, 0, 1, 8, 0, 0, 0, 9]);
///
/// let mut output = [9; 12];
/// let ran = hogvax::perform(&code, &tree, 2, &mut output);
/// assert_eq!(ran.to_string(), "refused 14 1 units 2 read 1 written 1 number 0");
/// assert_eq!(output, [2, 9, 9, 9, 9, 9, 9, 9, 9, 9, 9, 9]);
/// ```
pub fn perform(code: &[u8], input: &[u8], fuel: u64, output: &mut [u8]) -> Ran {
    perform_in(&mut WorkSpace::new(), code, input, fuel, output)
}

/// As [`perform`], in a work space that may be used again, so that no run
/// after the first allocates one.
///
/// ```
/// // Push -3, and return with it.
/// let code = [
///     [0, 0, 0, 0, 0xfd, 0xff, 0xff, 0xff],
///     [13, 1, 0, 0, 0, 0, 0, 0],
/// ]
/// .concat();
/// let mut work = hogvax::WorkSpace::new();
/// let ran = hogvax::perform_in(&mut work, &code, &[], 2, &mut []);
/// assert_eq!(ran.to_string(), "ended units 2 read 0 written 0 number -3");
/// let ran = hogvax::perform_in(&mut work, &code[8..], &[], 2, &mut []);
/// assert_eq!(ran.to_string(), "refused 19 0 units 0 read 0 written 0 number 0");
///
/// // Push 2147483647, push 1, and add them: the sum is out of range.
/// let code = [
///     [0, 0, 0, 0, 0xff, 0xff, 0xff, 0x7f],
///     [0, 0, 0, 0, 1, 0, 0, 0],
///     [2, 0, 0, 0, 0, 0, 0, 0],
/// ]
/// .concat();
/// let ran = hogvax::perform_in(&mut work, &code, &[], 3, &mut []);
/// assert_eq!(ran.to_string(), "refused 21 0 units 2 read 0 written 0 number 0");
/// ```
pub fn perform_in(
    work: &mut WorkSpace,
    code: &[u8],
    input: &[u8],
    fuel: u64,
    output: &mut [u8],
) -> Ran {
    let WorkSpace {
        values, returns, ..
    } = work;
    let mut answer = [0; 5];
    let number = perform_into(code, input, fuel, output, values, returns, &mut answer);
    Ran::told(number, answer)
}

/// The call that [`perform`] makes, as the static library exports it: 0, or the
/// refusal's number; with the refusal's position (0 if there is none), the units,
/// the bytes read, the bytes written and the number, sign-extended to 64 bits, in
/// `answer`.
///
/// Before all refusals of [`perform`] comes 13 at 0, with 0 in every count:
/// there are fewer than 16,384 `values` or fewer than 2,048 `returns`, however
/// few would do. Both are then left as they are; after a run they are
/// unspecified.
///
/// Slots of `answer` from 5 on are left as they are. With fewer than 5 slots
/// the number is 13, and all lent slices are left as they are.
///
/// ```
/// let (mut output, mut values, mut returns) = ([9; 1], [0; 16_384], [0; 2_048]);
/// let mut answer = [9; 6];
/// // Push -3, and return with it.
/// let code = [
///     [0, 0, 0, 0, 0xfd, 0xff, 0xff, 0xff],
///     [13, 1, 0, 0, 0, 0, 0, 0],
/// ]
/// .concat();
/// let number = hogvax::perform_into(
///     &code, &[], 5, &mut output, &mut values, &mut returns, &mut answer,
/// );
/// assert_eq!((number, answer), (0, [0, 2, 0, 0, u64::MAX - 2, 9]));
///
/// // Node tag, then nothing more.
/// let code = [8, 0, 0, 0, 0, 0, 0, 0];
/// let number = hogvax::perform_into(
///     &code, &[], 5, &mut output, &mut values, &mut returns, &mut answer,
/// );
/// assert_eq!((number, answer), (19, [0, 1, 0, 1, 0, 9]));
/// assert_eq!(output, [2]);
///
/// output = [9];
/// let number = hogvax::perform_into(
///     &code, &[], 5, &mut output, &mut values[1..], &mut returns, &mut answer,
/// );
/// assert_eq!((number, answer), (13, [0, 0, 0, 0, 0, 9]));
/// let number = hogvax::perform_into(
///     &code, &[], 5, &mut output, &mut values, &mut returns, &mut answer[2..],
/// );
/// assert_eq!((number, answer), (13, [0, 0, 0, 0, 0, 9]));
/// assert_eq!(output, [9]);
/// ```
#[doc(hidden)]
pub fn perform_into(
    code: &[u8],
    input: &[u8],
    fuel: u64,
    output: &mut [u8],
    values: &mut [u32],
    returns: &mut [u64],
    answer: &mut [u64],
) -> u32 {
    ffi::perform(code, input, fuel, output, values, returns, answer)
}

#[cfg(test)]
mod tests {
    use super::*;

    #[test]
    fn a_run_that_ended_is_told() {
        let ran = Ran::told(0, [0, 25, 11, 12, 13]);
        assert_eq!(
            ran,
            Ran {
                refused: None,
                units: 25,
                read: 11,
                written: 12,
                number: 13,
            }
        );
        let line = "ended units 25 read 11 written 12 number 13";
        assert_eq!(ran.to_string(), line);
    }

    #[test]
    fn a_refusal_is_reported_with_its_position() {
        let ran = Ran::told(17, [11, 20, 11, 7, 0]);
        let (number, position) = (17, 11);
        assert_eq!(ran.refused, Some(Refused { number, position }));
        let line = "refused 17 11 units 20 read 11 written 7 number 0";
        assert_eq!(ran.to_string(), line);
    }

    #[test]
    fn the_number_is_signed() {
        for (word, number) in [
            (0, "0"),
            (1, "1"),
            (0x7fff_ffff, "2147483647"),
            (0xffff_ffff_8000_0000, "-2147483648"),
            (u64::MAX - 2, "-3"),
            (u64::MAX, "-1"),
        ] {
            let line = Ran::told(0, [0, 1, 0, 0, word]).to_string();
            let told = format!("ended units 1 read 0 written 0 number {number}");
            assert_eq!(line, told);
        }
    }

    #[test]
    fn units_take_64_bits() {
        let line = Ran::told(14, [0, u64::MAX, 0, 0, 0]).to_string();
        let told = "refused 14 0 units 18446744073709551615 read 0 written 0 number 0";
        assert_eq!(line, told);
    }
}
