//! The file writer and the file reader of programs.

use crate::assembly::records::{Record, Type, FUNCTION_0, RECORD_BYTES};
use crate::{ffi, written, Refused};

/// The bytes of the longest records: a header, 32 functions and 1,024 nodes,
/// 8 bytes each.
pub const LONGEST_RECORDS: usize = RECORD_BYTES * (1 + 32 + 1_024);

/// The bytes of the longest program file: 17 blocks of 512.
pub const LONGEST_FILE: usize = 512 * 17;

/// Whether a program gives a number and not a tree, which is what the record
/// of its function 0 says. `false` if these bytes have no such record; nothing
/// else about them is looked at.
///
/// ```
/// // One function, which gives a number, and its only node, Const 5.
/// let records = [
///     1, 1, 1, 0, 0, 0, 0, 0, //
///     0, 0, 1, 0, 0, 0, 0, 0, //
///     0, 0, 0, 0, 5, 0, 0, 0,
/// ];
/// let file = hogvax::pack(&records).unwrap();
/// assert!(hogvax::gives_a_number(&file));
/// ```
pub fn gives_a_number(file: &[u8]) -> bool {
    let function = Record::nth(file, FUNCTION_0);
    function.is_some_and(|function| function.result() == Type::Number)
}

/// The program file of these records, 8 bytes each: the header, the
/// functions, and their nodes in prefix order. Or the first fault, each test
/// being made of all records before the next:
///
/// - 4, a field of the header is wrong, or the length is not 8 bytes for the
///   header and each function and node that it counts, at record 0;
/// - 5, a field of a function is wrong, at its record, or the node counts do
///   not sum to the header's, at the last function's record;
/// - 6, a node's kind is above 8, a field that its kind does not use is not
///   zero, or a Call's function is not there, at its record;
/// - 7, a function's nodes are not exactly one expression, at the record of
///   its first node.
///
/// Records count from 0, the header, through all functions and nodes. Types,
/// names and the order of trees are not looked at.
///
/// ```
/// // One function, which gives a number, and its only node, Const 5.
/// let records = [
///     1, 1, 1, 0, 0, 0, 0, 0, //
///     0, 0, 1, 0, 0, 0, 0, 0, //
///     0, 0, 0, 0, 5, 0, 0, 0,
/// ];
/// let file = hogvax::pack(&records).unwrap();
/// assert_eq!(file.len(), 512);
/// assert_eq!(file[..24], records);
/// assert_eq!(hogvax::unpack(&file).unwrap(), records);
///
/// let refused = hogvax::pack(&records[..16]).unwrap_err();
/// assert_eq!(refused.to_string(), "refused 4 0");
/// ```
pub fn pack(records: &[u8]) -> Result<Vec<u8>, Refused> {
    written(LONGEST_FILE, |file, answer| {
        pack_into(records, file, answer)
    })
}

/// The records of this program file, or the first fault, each test being made
/// of the whole file before the next; only 2 and 3 go together, block by
/// block:
///
/// - 1, the file is not 1 to 17 blocks of 512 bytes, at 0;
/// - 2, the 16-bit words of a block do not sum to 65,535 modulo 65,536, at
///   that block, counted from 0 at the start of the file;
/// - 3, another field of a block is wrong, or a record that it does not use
///   is not zero, at that block;
/// - 4 to 7 as [`pack`] gives them, where the records are those that the
///   blocks use.
///
/// [`pack`] turns the records into the same file again, and the other way
/// round: a program has one file only.
///
/// ```
/// let refused = hogvax::unpack(&[]).unwrap_err();
/// assert_eq!(refused.to_string(), "refused 1 0");
/// let refused = hogvax::unpack(&[0; 512]).unwrap_err();
/// assert_eq!(refused.to_string(), "refused 2 0");
/// ```
pub fn unpack(file: &[u8]) -> Result<Vec<u8>, Refused> {
    written(LONGEST_RECORDS, |records, answer| {
        unpack_into(file, records, answer)
    })
}

/// The call that [`pack`] makes, as the static library exports it: 0, with 0 and
/// the length of the program file in `answer`, and the file at the start of
/// `file`; or the refusal's number, with its position and 0 in `answer`.
///
/// After the refusals of [`pack`] comes 13 at 0: `file` is shorter than the
/// program's blocks, 512 bytes for each 63 records or rest of them.
///
/// Bytes of `file` past the program file are left as they are, all of them on
/// a refusal; so are slots of `answer` from 2 on. With fewer than 2 slots
/// in `answer` the number is 13, and both are left as they are.
///
/// ```
/// let records = [
///     1, 1, 1, 0, 0, 0, 0, 0, //
///     0, 0, 1, 0, 0, 0, 0, 0, //
///     0, 0, 0, 0, 5, 0, 0, 0,
/// ];
/// let (mut file, mut answer) = ([9; 600], [9; 2]);
/// assert_eq!(hogvax::pack_into(&records, &mut file[..511], &mut answer), 13);
/// assert_eq!((file, answer), ([9; 600], [0, 0]));
/// assert_eq!(hogvax::pack_into(&records, &mut file, &mut answer), 0);
/// assert_eq!((&file[512..], answer), (&[9; 88][..], [0, 512]));
/// ```
#[doc(hidden)]
pub fn pack_into(records: &[u8], file: &mut [u8], answer: &mut [u64]) -> u32 {
    ffi::pack(records, file, answer)
}

/// The call that [`unpack`] makes, as the static library exports it: 0, with 0
/// and the length of the records in `answer`, and the records at the start of
/// `records`; or the refusal's number, with its position and 0 in `answer`.
///
/// After the refusals of [`unpack`] comes 13 at 0: `records` is shorter than
/// the program's records, 8 bytes each.
///
/// Bytes of `records` past the program's are left as they are, all of them on
/// a refusal; so are slots of `answer` from 2 on. With fewer than 2 slots
/// in `answer` the number is 13, and both are left as they are.
///
/// ```
/// let (mut records, mut answer) = ([9; 8], [9; 3]);
/// assert_eq!(hogvax::unpack_into(&[0; 513], &mut records, &mut answer), 1);
/// assert_eq!((records, answer), ([9; 8], [0, 0, 9]));
/// let slots = &mut answer[..1];
/// assert_eq!(hogvax::unpack_into(&[0; 513], &mut records, slots), 13);
/// assert_eq!((records, answer), ([9; 8], [0, 0, 9]));
/// ```
#[doc(hidden)]
pub fn unpack_into(file: &[u8], records: &mut [u8], answer: &mut [u64]) -> u32 {
    ffi::unpack(file, records, answer)
}
