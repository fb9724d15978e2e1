//! The runner: checks a program, translates it and runs its code.

use crate::{ffi, Ran, WorkSpace};

/// Checks the program of this file, translates it and runs its code over the
/// tokens of `input`. One unit of fuel is one instruction performed.
///
/// A file that can't be run is refused as [`check`](crate::check) refuses it,
/// 1 to 12, with 0 in every count. Else the run ends or is refused as
/// [`perform`](crate::perform) says, but never with 19.
///
/// On the tokens of a tree, whatever comes after them, the run reads opening
/// bytes of the tree and writes opening bytes of what the program means. Where
/// the program's evaluation ends after n expressions, all its sums in range, with
/// at most 1,024 calls open at once, and `output` has room for the result, every
/// fuel from 4n + 1 up suffices: the whole tree is read, and the whole result
/// written or the number given. For every other evaluation no fuel suffices.
///
/// Where the evaluation comes to a sum outside -2147483648 to 2147483647, with at
/// most 1,024 calls open at once, it has no result: with enough fuel and output
/// the run is refused with 21, at the bytes read. On a tree that
/// [`tree`](crate::tree) takes, [`source`](crate::source) says at which record.
///
/// What the run wrote stays at the start of `output`, also if it was refused;
/// the rest of `output` is left as it is.
///
/// ```
/// // Sum: Case 0, Var 0, Add, Call 0 on 1, Call 0 on 2.
/// let records = [
///     [1, 1, 5, 0, 0, 0, 0, 0], // 0: header, 1 function and 5 nodes
///     [0, 0, 5, 0, 0, 0, 0, 0], // 1: function 0, a number
///     [7, 0, 0, 0, 0, 0, 0, 0], // 2: Case 0
///     [1, 0, 0, 0, 0, 0, 0, 0], // 3: Var 0
///     [2, 0, 0, 0, 0, 0, 0, 0], // 4: Add
///     [8, 1, 0, 0, 0, 0, 0, 0], // 5: Call 0 on 1
///     [8, 2, 0, 0, 0, 0, 0, 0], // 6: Call 0 on 2
/// ]
/// .concat();
/// let file = hogvax::pack(&records).unwrap();
/// // Leaves 5 and 7 under a node, and a byte after the tree.
/// let input = [2, 1, 5, 0, 0, 0, 1, 7, 0, 0, 0, 99];
///
/// let ran = hogvax::run(&file, &input, u64::MAX, &mut []);
/// assert_eq!(ran.to_string(), "ended units 17 read 11 written 0 number 12");
/// let ran = hogvax::run(&file, &input, 16, &mut []);
/// assert_eq!(ran.to_string(), "refused 14 11 units 16 read 11 written 0 number 0");
/// let ran = hogvax::run(&file[1..], &input, u64::MAX, &mut []);
/// assert_eq!(ran.to_string(), "refused 1 0 units 0 read 0 written 0 number 0");
/// // Leaves 2147483647 and 1: their sum is out of range.
/// let input = [2, 1, 0xff, 0xff, 0xff, 0x7f, 1, 1, 0, 0, 0];
/// let ran = hogvax::run(&file, &input, u64::MAX, &mut []);
/// assert_eq!(ran.to_string(), "refused 21 11 units 15 read 11 written 0 number 0");
/// ```
pub fn run(file: &[u8], input: &[u8], fuel: u64, output: &mut [u8]) -> Ran {
    run_in(&mut WorkSpace::new(), file, input, fuel, output)
}

/// As [`run`], in a work space that may be used again, so that no run after
/// the first allocates one. What a call leaves there, the program's code among
/// it, does not matter to the next.
///
/// ```
/// // Grow: Case 0, Leaf, Add, Var 0, Const 1, Node,
/// // Call 0 on 1, Call 0 on 2.
/// let records = [
///     [1, 1, 8, 0, 0, 0, 0, 0], // 0: header, 1 function and 8 nodes
///     [1, 0, 8, 0, 0, 0, 0, 0], // 1: function 0, a tree
///     [7, 0, 0, 0, 0, 0, 0, 0], // 2: Case 0
///     [5, 0, 0, 0, 0, 0, 0, 0], // 3: Leaf
///     [2, 0, 0, 0, 0, 0, 0, 0], // 4: Add
///     [1, 0, 0, 0, 0, 0, 0, 0], // 5: Var 0
///     [0, 0, 0, 0, 1, 0, 0, 0], // 6: Const 1
///     [6, 0, 0, 0, 0, 0, 0, 0], // 7: Node
///     [8, 1, 0, 0, 0, 0, 0, 0], // 8: Call 0 on 1
///     [8, 2, 0, 0, 0, 0, 0, 0], // 9: Call 0 on 2
/// ]
/// .concat();
/// let file = hogvax::pack(&records).unwrap();
/// // Two trees, one after the other: a leaf 5, a leaf 7.
/// let input = [1, 5, 0, 0, 0, 1, 7, 0, 0, 0];
///
/// let (mut work, mut output) = (hogvax::WorkSpace::new(), [9; 6]);
/// let ran = hogvax::run_in(&mut work, &file, &input, u64::MAX, &mut output);
/// assert_eq!(ran.to_string(), "ended units 10 read 5 written 5 number 0");
/// assert_eq!(output, [1, 6, 0, 0, 0, 9]);
/// let rest = &input[ran.read..];
/// let ran = hogvax::run_in(&mut work, &file, rest, u64::MAX, &mut output);
/// assert_eq!(ran.to_string(), "ended units 10 read 5 written 5 number 0");
/// assert_eq!(output, [1, 8, 0, 0, 0, 9]);
/// ```
pub fn run_in(
    work: &mut WorkSpace,
    file: &[u8],
    input: &[u8],
    fuel: u64,
    output: &mut [u8],
) -> Ran {
    let WorkSpace {
        code,
        values,
        returns,
    } = work;
    let mut answer = [0; 5];
    let number = run_into(
        file,
        input,
        fuel,
        output,
        code,
        values,
        returns,
        &mut answer,
    );
    Ran::told(number, answer)
}

/// The call that [`run`] makes, as the static library exports it: 0, or the
/// refusal's number; with the refusal's position (0 if there is none), the units,
/// the bytes read, the bytes written and the number, sign-extended to 64 bits,
/// in `answer`.
///
/// After 1 to 12 and before all refusals of the run comes 13 at 0, with 0 in
/// every count: `code` is shorter than this program's code, or there are fewer
/// than 16,384 `values` or fewer than 2,048 `returns`, however few would do.
///
/// Refused with 1 to 13, the call leaves `output`, `code`, `values` and
/// `returns` as they are. Otherwise the program's code goes to the start of
/// `code` and stays there, whatever the run answers; the rest of `code` is left
/// as it is. After a run `values` and `returns` are unspecified.
///
/// Slots of `answer` from 5 on are left as they are. With fewer than 5 slots
/// the number is 13, and all lent slices are left as they are.
///
/// ```
/// // One function, which gives a number, and its only node, Call 0 on 0.
/// let records = [
///     1, 1, 1, 0, 0, 0, 0, 0, //
///     0, 0, 1, 0, 0, 0, 0, 0, //
///     8, 0, 0, 0, 0, 0, 0, 0,
/// ];
/// let file = hogvax::pack(&records).unwrap();
/// let (mut values, mut returns) = ([0; 16_384], [0; 2_048]);
/// let (mut code, mut answer) = ([9; 17], [9; 6]);
/// let mut run = |code: &mut [u8], answer: &mut [u64]| {
///     let (values, returns) = (&mut values, &mut returns);
///     hogvax::run_into(&file, &[], 9_999, &mut [], code, values, returns, answer)
/// };
///
/// assert_eq!(run(&mut code[..15], &mut answer), 13);
/// assert_eq!((code, answer), ([9; 17], [0, 0, 0, 0, 0, 9]));
/// assert_eq!(run(&mut code, &mut answer[..4]), 13);
/// assert_eq!((code, answer), ([9; 17], [0, 0, 0, 0, 0, 9]));
/// assert_eq!(run(&mut code, &mut answer), 18);
/// assert_eq!(answer, [0, 1_023, 0, 0, 0, 9]);
/// assert_eq!(code, [12, 0, 0, 0, 0, 0, 0, 0, 13, 1, 0, 0, 0, 0, 0, 0, 9]);
/// ```
#[doc(hidden)]
#[allow(clippy::too_many_arguments)]
pub fn run_into(
    file: &[u8],
    input: &[u8],
    fuel: u64,
    output: &mut [u8],
    code: &mut [u8],
    values: &mut [u32],
    returns: &mut [u64],
    answer: &mut [u64],
) -> u32 {
    ffi::run(file, input, fuel, output, code, values, returns, answer)
}
