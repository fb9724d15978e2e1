//! The order checker of programs.

use crate::{ffi, length_or_refused, Refused};

/// Whether the program of this file names, types and orders its trees rightly,
/// so that it can run over a stream. Or the first fault, each test being made
/// of the whole file before the next. First come 1 to 7, as
/// [`unpack`](crate::unpack) gives them. Then, at each node in prefix order:
///
/// - 9, a Var names a number, or a Case or Call a tree, that is not bound
///   there;
/// - 8, a number stands where a tree is expected, or a tree where a number is;
/// - 10, the function holds 16 words already where a Const, a Var, a Case, or
///   a Call that gives a number and has no arguments needs one more.
///
/// Then, function by function, each walked through with its pending trees, at
/// first the parameter alone:
///
/// - 11, a Case or Call names a tree that is not the first of those pending,
///   at its record; the branches of a Case or IfZero leave different trees, at
///   its record, once both are finished; or a function leaves a tree, at the
///   record of its first node;
/// - 12, a Case stands where 16 trees are pending, at its record.
///
/// Records count from 0, the header, through all functions and nodes.
///
/// ```
/// // One function, which gives a number, and its only node, Call 0 on 0.
/// let records = [
///     1, 1, 1, 0, 0, 0, 0, 0, //
///     0, 0, 1, 0, 0, 0, 0, 0, //
///     8, 0, 0, 0, 0, 0, 0, 0,
/// ];
/// let file = hogvax::pack(&records).unwrap();
/// assert_eq!(hogvax::check(&file), Ok(()));
/// let refused = hogvax::check(&file[..511]).unwrap_err();
/// assert_eq!(refused.to_string(), "refused 1 0");
/// ```
pub fn check(file: &[u8]) -> Result<(), Refused> {
    passed_or_refused(|answer| check_into(file, answer))
}

/// As [`check`], of the program with these records, 8 bytes each. First come 4
/// to 7, as [`pack`](crate::pack) gives them.
///
/// ```
/// // One function, which gives a number, and its only node, Const 5: its
/// // tree is never taken.
/// let records = [
///     1, 1, 1, 0, 0, 0, 0, 0, //
///     0, 0, 1, 0, 0, 0, 0, 0, //
///     0, 0, 0, 0, 5, 0, 0, 0,
/// ];
/// let refused = hogvax::check_records(&records).unwrap_err();
/// assert_eq!(refused.to_string(), "refused 11 2");
/// ```
pub fn check_records(records: &[u8]) -> Result<(), Refused> {
    passed_or_refused(|answer| check_records_into(records, answer))
}

/// The call that [`check`] makes, as the static library exports it: 0, with 0 and
/// 0 in `answer`; or the refusal's number, with its position and 0 in `answer`.
/// Slots of `answer` from 2 on are left as they are. With fewer than 2 slots
/// the number is 13 and `answer` is left as it is.
#[doc(hidden)]
pub fn check_into(file: &[u8], answer: &mut [u64]) -> u32 {
    ffi::check(file, answer)
}

/// The call that [`check_records`] makes, as the static library exports it. It
/// answers as [`check_into`] does.
#[doc(hidden)]
pub fn check_records_into(records: &[u8], answer: &mut [u64]) -> u32 {
    ffi::check_records(records, answer)
}

/// A call that has no length to answer.
fn passed_or_refused(call: impl FnOnce(&mut [u64]) -> u32) -> Result<(), Refused> {
    length_or_refused(call).map(|_| ())
}
