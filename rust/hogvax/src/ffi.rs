//! The calls that the static library exports. All `unsafe` code is here.
//!
//! A slice passes as pointer and length. The functions of the library are
//! proved to read and write inside the slices lent to them and nowhere else,
//! and to keep no pointer, so every slice may be passed. A slice's pointer is
//! not null and aligned, and it has fewer than 2^63 bytes, all initialised, as
//! `include/hogvax.h` asks.

extern "C" {
    fn hogvax_tree_bytes(input: *const u8, input_len: usize) -> usize;

    fn hogvax_tree(input: *const u8, input_len: usize, answer: *mut u64, answer_len: usize) -> u32;

    fn hogvax_pack(
        records: *const u8,
        records_len: usize,
        file: *mut u8,
        file_len: usize,
        answer: *mut u64,
        answer_len: usize,
    ) -> u32;

    fn hogvax_unpack(
        file: *const u8,
        file_len: usize,
        records: *mut u8,
        records_len: usize,
        answer: *mut u64,
        answer_len: usize,
    ) -> u32;

    fn hogvax_check(file: *const u8, file_len: usize, answer: *mut u64, answer_len: usize) -> u32;

    fn hogvax_check_records(
        records: *const u8,
        records_len: usize,
        answer: *mut u64,
        answer_len: usize,
    ) -> u32;

    fn hogvax_translate(
        file: *const u8,
        file_len: usize,
        code: *mut u8,
        code_len: usize,
        answer: *mut u64,
        answer_len: usize,
    ) -> u32;

    fn hogvax_perform(
        code: *const u8,
        code_len: usize,
        input: *const u8,
        input_len: usize,
        fuel: u64,
        output: *mut u8,
        output_len: usize,
        values: *mut u32,
        values_len: usize,
        returns: *mut u64,
        returns_len: usize,
        answer: *mut u64,
        answer_len: usize,
    ) -> u32;

    fn hogvax_run(
        file: *const u8,
        file_len: usize,
        input: *const u8,
        input_len: usize,
        fuel: u64,
        output: *mut u8,
        output_len: usize,
        code: *mut u8,
        code_len: usize,
        values: *mut u32,
        values_len: usize,
        returns: *mut u64,
        returns_len: usize,
        answer: *mut u64,
        answer_len: usize,
    ) -> u32;

    fn hogvax_source(
        file: *const u8,
        file_len: usize,
        input: *const u8,
        input_len: usize,
        fuel: u64,
        output: *mut u8,
        output_len: usize,
        values: *mut u32,
        values_len: usize,
        returns: *mut u64,
        returns_len: usize,
        answer: *mut u64,
        answer_len: usize,
    ) -> u32;
}

/// A call that reads its first slice and answers in its second.
type Question = unsafe extern "C" fn(*const u8, usize, *mut u64, usize) -> u32;

/// A call that reads its first slice, writes to its second, and answers in
/// its third.
type Conversion = unsafe extern "C" fn(*const u8, usize, *mut u8, usize, *mut u64, usize) -> u32;

/// A call that reads its first two slices, takes a fuel, writes to its third
/// slice, works in the two after it, and answers in its last.
type Run = unsafe extern "C" fn(
    *const u8,
    usize,
    *const u8,
    usize,
    u64,
    *mut u8,
    usize,
    *mut u32,
    usize,
    *mut u64,
    usize,
    *mut u64,
    usize,
) -> u32;

/// The length of the first tree's own bytes, which begin the input; 0 on a
/// refusal.
pub fn tree_bytes(input: &[u8]) -> usize {
    // SAFETY: pointer and length are those of one slice.
    unsafe { hogvax_tree_bytes(input.as_ptr(), input.len()) }
}

/// The tree reader's answer as numbers; see `tree_into`.
pub fn tree(input: &[u8], answer: &mut [u64]) -> u32 {
    // SAFETY: the library exports this call.
    unsafe { ask(hogvax_tree, input, answer) }
}

/// The program file of these records; see `pack_into`.
pub fn pack(records: &[u8], file: &mut [u8], answer: &mut [u64]) -> u32 {
    // SAFETY: the library exports this call.
    unsafe { convert(hogvax_pack, records, file, answer) }
}

/// The records of this program file; see `unpack_into`.
pub fn unpack(file: &[u8], records: &mut [u8], answer: &mut [u64]) -> u32 {
    // SAFETY: the library exports this call.
    unsafe { convert(hogvax_unpack, file, records, answer) }
}

/// Both passes over this program file; see `check_into`.
pub fn check(file: &[u8], answer: &mut [u64]) -> u32 {
    // SAFETY: the library exports this call.
    unsafe { ask(hogvax_check, file, answer) }
}

/// Both passes over these records; see `check_records_into`.
pub fn check_records(records: &[u8], answer: &mut [u64]) -> u32 {
    // SAFETY: the library exports this call.
    unsafe { ask(hogvax_check_records, records, answer) }
}

/// The code of this program file; see `translate_into`.
pub fn translate(file: &[u8], code: &mut [u8], answer: &mut [u64]) -> u32 {
    // SAFETY: the library exports this call.
    unsafe { convert(hogvax_translate, file, code, answer) }
}

/// The stream run of this code over this input; see `perform_into`.
pub fn perform(
    code: &[u8],
    input: &[u8],
    fuel: u64,
    output: &mut [u8],
    values: &mut [u32],
    returns: &mut [u64],
    answer: &mut [u64],
) -> u32 {
    // SAFETY: the library exports this call.
    unsafe {
        run_in(
            hogvax_perform,
            code,
            input,
            fuel,
            output,
            values,
            returns,
            answer,
        )
    }
}

/// The stream run of this program file's code; see `run_into`.
#[allow(clippy::too_many_arguments)]
pub fn run(
    file: &[u8],
    input: &[u8],
    fuel: u64,
    output: &mut [u8],
    code: &mut [u8],
    values: &mut [u32],
    returns: &mut [u64],
    answer: &mut [u64],
) -> u32 {
    // SAFETY: pointers and lengths are those of one slice each, and the
    // slices written are borrowed mutably.
    unsafe {
        hogvax_run(
            file.as_ptr(),
            file.len(),
            input.as_ptr(),
            input.len(),
            fuel,
            output.as_mut_ptr(),
            output.len(),
            code.as_mut_ptr(),
            code.len(),
            values.as_mut_ptr(),
            values.len(),
            returns.as_mut_ptr(),
            returns.len(),
            answer.as_mut_ptr(),
            answer.len(),
        )
    }
}

/// The source run of this program file over this input; see `source_into`.
pub fn source(
    file: &[u8],
    input: &[u8],
    fuel: u64,
    output: &mut [u8],
    values: &mut [u32],
    returns: &mut [u64],
    answer: &mut [u64],
) -> u32 {
    // SAFETY: the library exports this call.
    unsafe {
        run_in(
            hogvax_source,
            file,
            input,
            fuel,
            output,
            values,
            returns,
            answer,
        )
    }
}

/// Lends the two slices to a call.
///
/// # Safety
///
/// The call is one that the library exports.
unsafe fn ask(call: Question, input: &[u8], answer: &mut [u64]) -> u32 {
    // SAFETY: pointers and lengths are those of one slice each, and the
    // slice written is borrowed mutably.
    unsafe {
        call(
            input.as_ptr(),
            input.len(),
            answer.as_mut_ptr(),
            answer.len(),
        )
    }
}

/// Lends the three slices to a call.
///
/// # Safety
///
/// The call is one that the library exports.
unsafe fn convert(call: Conversion, input: &[u8], output: &mut [u8], answer: &mut [u64]) -> u32 {
    // SAFETY: pointers and lengths are those of one slice each, and the
    // slices written are borrowed mutably.
    unsafe {
        call(
            input.as_ptr(),
            input.len(),
            output.as_mut_ptr(),
            output.len(),
            answer.as_mut_ptr(),
            answer.len(),
        )
    }
}

/// Lends the six slices to a call.
///
/// # Safety
///
/// The call is one that the library exports.
#[allow(clippy::too_many_arguments)]
unsafe fn run_in(
    call: Run,
    first: &[u8],
    input: &[u8],
    fuel: u64,
    output: &mut [u8],
    values: &mut [u32],
    returns: &mut [u64],
    answer: &mut [u64],
) -> u32 {
    // SAFETY: pointers and lengths are those of one slice each, and the
    // slices written are borrowed mutably.
    unsafe {
        call(
            first.as_ptr(),
            first.len(),
            input.as_ptr(),
            input.len(),
            fuel,
            output.as_mut_ptr(),
            output.len(),
            values.as_mut_ptr(),
            values.len(),
            returns.as_mut_ptr(),
            returns.len(),
            answer.as_mut_ptr(),
            answer.len(),
        )
    }
}
