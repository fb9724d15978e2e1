//! The translator of programs.

use crate::{ffi, written, Refused, LONGEST_CODE};

/// The stream code of the program in this file, 8 bytes an instruction, by
/// the reference's templates: function by function, each its body and a return.
/// Or the first fault, as [`check`](crate::check) gives it.
///
/// [`perform`](crate::perform) runs the code, [`run`](crate::run) does both.
///
/// ```
/// // One function, which gives a number, and its only node, Call 0 on 0.
/// let records = [
///     1, 1, 1, 0, 0, 0, 0, 0, //
///     0, 0, 1, 0, 0, 0, 0, 0, //
///     8, 0, 0, 0, 0, 0, 0, 0,
/// ];
/// let file = hogvax::pack(&records).unwrap();
/// let code = [
///     [12, 0, 0, 0, 0, 0, 0, 0], // 0: call 0
///     [13, 1, 0, 0, 0, 0, 0, 0], // 1: return, with a word
/// ]
/// .concat();
/// assert_eq!(hogvax::translate(&file), Ok(code));
/// let refused = hogvax::translate(&file[..511]).unwrap_err();
/// assert_eq!(refused.to_string(), "refused 1 0");
/// ```
pub fn translate(file: &[u8]) -> Result<Vec<u8>, Refused> {
    written(LONGEST_CODE, |code, answer| {
        translate_into(file, code, answer)
    })
}

/// The call that [`translate`] makes, as the static library exports it: 0, with 0
/// and the length of the code in `answer`, and the code at the start of
/// `code`; or the refusal's number, with its position and 0 in `answer`.
///
/// After the refusals of [`translate`] comes 13 at 0: `code` is shorter than
/// this program's code.
///
/// Bytes of `code` past the program's are left as they are, all of them on a
/// refusal; so are slots of `answer` from 2 on. With fewer than 2 slots in
/// `answer` the number is 13, and both are left as they are.
///
/// ```
/// let records = [
///     1, 1, 1, 0, 0, 0, 0, 0, //
///     0, 0, 1, 0, 0, 0, 0, 0, //
///     8, 0, 0, 0, 0, 0, 0, 0,
/// ];
/// let file = hogvax::pack(&records).unwrap();
/// let (mut code, mut answer) = ([9; 20], [9; 3]);
/// let short = &mut code[..15];
/// assert_eq!(hogvax::translate_into(&file, short, &mut answer), 13);
/// assert_eq!((code, answer), ([9; 20], [0, 0, 9]));
/// assert_eq!(hogvax::translate_into(&file, &mut code, &mut answer), 0);
/// assert_eq!((&code[16..], answer), (&[9; 4][..], [0, 16, 9]));
/// ```
#[doc(hidden)]
pub fn translate_into(file: &[u8], code: &mut [u8], answer: &mut [u64]) -> u32 {
    ffi::translate(file, code, answer)
}
