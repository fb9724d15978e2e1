//! The stream machine in C, `computed_goto.c`, which the build script compiles.

use hogvax::{Ran, Refused};

extern "C" {
    fn computed_goto_perform(
        code: *const u8,
        code_len: usize,
        input: *const u8,
        input_len: usize,
        fuel: u64,
        output: *mut u8,
        output_len: usize,
        values: *mut u32,
        values_len: usize,
        returns: *mut u64,
        returns_len: usize,
        answer: *mut [u64; 5],
    ) -> u32;
}

/// The stream run; see `hogvax::perform_into`.
pub fn perform(
    code: &[u8],
    input: &[u8],
    fuel: u64,
    output: &mut [u8],
    values: &mut [u32],
    returns: &mut [u64],
) -> Ran {
    let mut answer = [0; 5];
    // SAFETY: pointers and lengths are those of one slice each, the slices
    // written are borrowed mutably, and the answer has its five slots. The
    // function keeps to them, whatever the code is: it is tested with any code.
    let number = unsafe {
        computed_goto_perform(
            code.as_ptr(),
            code.len(),
            input.as_ptr(),
            input.len(),
            fuel,
            output.as_mut_ptr(),
            output.len(),
            values.as_mut_ptr(),
            values.len(),
            returns.as_mut_ptr(),
            returns.len(),
            &mut answer,
        )
    };
    told(number, answer)
}

/// What the function reported by a number, 0 or the refusal's, and in five slots.
fn told(number: u32, answer: [u64; 5]) -> Ran {
    let [position, units, read, written, word] = answer;
    Ran {
        refused: (number != 0).then_some(Refused { number, position }),
        units,
        read: read as usize,
        written: written as usize,
        number: word as i32,
    }
}
