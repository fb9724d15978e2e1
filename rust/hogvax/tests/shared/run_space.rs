//! What a call that makes a run is lent: buffers and answers that are too
//! short, and what is more than enough.

use reference::machine::{FILLER, RETURN_WORDS, VALUE_WORDS};

use crate::run_call::{Gave, Lengths, RunCall, Slices, UNTOUCHED};

/// Work words that are too few, of one kind or of both.
pub const SHORT: [(usize, usize); 8] = [
    (VALUE_WORDS - 1, RETURN_WORDS),
    (VALUE_WORDS, RETURN_WORDS - 1),
    (VALUE_WORDS - 1, RETURN_WORDS - 1),
    (0, RETURN_WORDS),
    (VALUE_WORDS, 0),
    (0, 0),
    (VALUE_WORDS - 1, 2 * RETURN_WORDS),
    (2 * VALUE_WORDS, RETURN_WORDS - 1),
];

/// Work words that are enough.
pub const ENOUGH: [(usize, usize); 5] = [
    (VALUE_WORDS, RETURN_WORDS),
    (VALUE_WORDS + 1, RETURN_WORDS),
    (VALUE_WORDS, RETURN_WORDS + 1),
    (VALUE_WORDS + 1, RETURN_WORDS + 1),
    (2 * VALUE_WORDS, 2 * RETURN_WORDS),
];

/// What is lent to one call, and what each of it is before the call.
#[derive(Clone, PartialEq)]
struct Buffers {
    output: Vec<u8>,
    code: Vec<u8>,
    values: Vec<u32>,
    returns: Vec<u64>,
    answer: Vec<u64>,
}

impl Buffers {
    fn new(lengths: Lengths, slots: usize) -> Buffers {
        Buffers {
            output: vec![FILLER; lengths.output],
            code: vec![FILLER; lengths.code],
            values: (0..lengths.values as u32).collect(),
            returns: (0..lengths.returns as u64).collect(),
            answer: vec![UNTOUCHED; slots],
        }
    }

    fn call<const N: usize>(&mut self, case: &impl RunCall<N>) -> u32 {
        case.call(Slices {
            output: &mut self.output,
            code: &mut self.code,
            values: &mut self.values,
            returns: &mut self.returns,
            answer: &mut self.answer,
        })
    }
}

/// With fewer slots than its answer has, a call gives 13, before all else, and
/// touches nothing.
pub fn assert_takes_slots<const N: usize>(case: &impl RunCall<N>, lengths: Lengths) {
    for slots in 0..N {
        let mut buffers = Buffers::new(lengths, slots);
        let before = buffers.clone();
        assert_eq!(buffers.call(case), 13, "{case:?}");
        assert!(buffers == before, "{slots} slots: {case:?}");
    }
}

/// A call fills the slots of its answer and leaves those after them.
pub fn assert_fills_slots<const N: usize>(
    case: &impl RunCall<N>,
    lengths: Lengths,
    expected: &Gave<N>,
) {
    for slots in [N, N + 1, N + 2, 100] {
        let mut buffers = Buffers::new(lengths, slots);
        let number = buffers.call(case);
        let (filled, rest) = buffers.answer.split_at(N);
        assert!(rest.iter().all(|&word| word == UNTOUCHED), "{case:?}");
        let gave = Gave {
            number,
            slots: filled.try_into().unwrap(),
            output: buffers.output,
            code: buffers.code,
        };
        assert_eq!(gave, *expected, "{slots} slots: {case:?}");
    }
}

/// A call that is refused before its run, with this number and these slots,
/// leaves every buffer but its answer.
pub fn assert_touches_nothing_else<const N: usize>(
    case: &impl RunCall<N>,
    lengths: Lengths,
    number: u32,
    slots: [u64; N],
) {
    let mut buffers = Buffers::new(lengths, N + 1);
    let mut expected = buffers.clone();
    expected.answer[..N].copy_from_slice(&slots);
    assert_eq!(buffers.call(case), number, "{lengths:?}: {case:?}");
    assert!(buffers == expected, "{lengths:?}: {case:?}");
}
