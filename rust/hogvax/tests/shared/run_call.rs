//! The calls that make a run, held against the reference: each with lent
//! buffers, of which every byte, word and slot is compared, and as a safe
//! function. `machine/`, `run/` and `source/` are its instances.

use std::fmt;

use hogvax::WorkSpace;
use reference::machine::{FILLER, RETURN_WORDS, VALUE_WORDS};
use reference::{shown, Random};

/// What every slot of an answer is before the call.
pub const UNTOUCHED: u64 = 0x0123_4567_89ab_cdef;

/// What every byte of a safe function's output is before the call: a tag.
const OTHER_FILLER: u8 = 2;

/// So much of a buffer stands before and after the part that is lent.
const MARGIN: usize = 8;

/// All that a call gives: the number, 0 or the refusal's, the slots of its
/// answer, the whole output, and the whole code buffer if it has one.
#[derive(Clone, PartialEq, Eq)]
pub struct Gave<const N: usize> {
    pub number: u32,
    /// The refusal's position; the units or the expressions begun; the bytes
    /// read, in a stream run; the bytes written; the number, sign-extended; in a
    /// source run the tips and the depth of the tree.
    pub slots: [u64; N],
    pub output: Vec<u8>,
    pub code: Vec<u8>,
}

/// The buffers may be too long to be shown whole.
impl<const N: usize> fmt::Debug for Gave<N> {
    fn fmt(&self, f: &mut fmt::Formatter<'_>) -> fmt::Result {
        let output = shown(&self.output).replace("input", "output");
        write!(f, "{} {:?}, {output}", self.number, self.slots)?;
        write!(f, ", code of {} bytes", self.code.len())
    }
}

/// How much a call is lent.
#[derive(Clone, Copy, Debug)]
pub struct Lengths {
    pub output: usize,
    pub code: usize,
    pub values: usize,
    pub returns: usize,
}

/// What a call is lent.
pub struct Slices<'a> {
    pub output: &'a mut [u8],
    pub code: &'a mut [u8],
    pub values: &'a mut [u32],
    pub returns: &'a mut [u64],
    pub answer: &'a mut [u64],
}

/// A safe function: of what is run, the input, the fuel and the output.
pub type SafeIn<A> = fn(&mut WorkSpace, &[u8], &[u8], u64, &mut [u8]) -> A;
pub type SafeAlone<A> = fn(&[u8], &[u8], u64, &mut [u8]) -> A;

/// A case to be tested: a call of the library with all that decides what it
/// gives. Its answer has N slots.
pub trait RunCall<const N: usize>: fmt::Debug + Sized {
    /// What the safe functions answer.
    type Answer: PartialEq + fmt::Debug;

    /// The slot that counts the bytes written; the number is in the next.
    const WRITTEN: usize;

    /// The safe function, in a work space that is lent.
    const SAFE_IN: SafeIn<Self::Answer>;

    /// The safe function, in a work space of its own.
    const SAFE_ALONE: SafeAlone<Self::Answer>;

    /// What is run, the input and the fuel.
    fn given(&self) -> (&[u8], &[u8], u64);

    fn with_fuel(&self, fuel: u64) -> Self;

    fn lengths(&self) -> Lengths;

    /// Makes the call with lent slices.
    fn call(&self, lent: Slices) -> u32;

    /// What the safe functions answer where the call gives this.
    fn safe_answer(gave: &Gave<N>) -> Self::Answer;

    /// What the reference gives. Every byte of its buffers is `FILLER` before.
    fn reference(&self) -> Gave<N>;

    /// Makes the call as a safe function, with an output of which each byte is
    /// this before: the answer, and the whole output.
    fn call_in(&self, work: &mut WorkSpace, filler: u8) -> (Self::Answer, Vec<u8>) {
        let (first, input, fuel) = self.given();
        let mut output = vec![filler; self.lengths().output];
        (Self::SAFE_IN(work, first, input, fuel, &mut output), output)
    }
}

/// Buffers that are lent to one call after another. A work space holds what
/// the call before left.
pub struct Lent {
    pub work: WorkSpace,
    /// Makes the work words before each call anything; without, they are what
    /// the call before left, and at first every bit is 1.
    words: Option<Random>,
    values: Vec<u32>,
    returns: Vec<u64>,
}

/// What stands about the part of a buffer that is lent, which has this length.
fn about<T: Copy>(buffer: &[T], length: usize) -> Vec<T> {
    [&buffer[..MARGIN], &buffer[MARGIN + length..]].concat()
}

/// A buffer with room for so much between its margins, each element being
/// this.
fn with_margins<T: Clone>(before: T, length: usize) -> Vec<T> {
    vec![before; MARGIN + length + MARGIN]
}

/// The part of a buffer that is lent.
fn lent<T>(buffer: &mut [T], length: usize) -> &mut [T] {
    &mut buffer[MARGIN..][..length]
}

impl Lent {
    /// With so many times the work words that a run needs.
    pub fn with(words: Option<Random>, times: usize) -> Lent {
        Lent {
            work: WorkSpace::new(),
            words,
            values: with_margins(u32::MAX, times * VALUE_WORDS),
            returns: with_margins(u64::MAX, times * RETURN_WORDS),
        }
    }

    /// Fills the work words, if they are to be anything: with small numbers,
    /// such as positions and counts are, or with any.
    fn fill(&mut self) {
        if let Some(random) = &mut self.words {
            let bits = random.pick(&[64, 48, 32, 14, 1]);
            let mut word = || random.next_u64() >> (64 - bits);
            self.values.fill_with(|| word() as u32);
            self.returns.fill_with(word);
        }
    }

    /// With lent slices and a slot more than the answer has. What stands about
    /// them is untouched.
    pub fn call_into<const N: usize>(&mut self, case: &impl RunCall<N>) -> Gave<N> {
        self.fill();
        let lengths = case.lengths();
        let mut output = with_margins(FILLER, lengths.output);
        let mut code = with_margins(FILLER, lengths.code);
        let mut answer = vec![UNTOUCHED; N + 2];
        let values_about = about(&self.values, lengths.values);
        let returns_about = about(&self.returns, lengths.returns);
        let number = case.call(Slices {
            output: lent(&mut output, lengths.output),
            code: lent(&mut code, lengths.code),
            values: lent(&mut self.values, lengths.values),
            returns: lent(&mut self.returns, lengths.returns),
            answer: &mut answer[..N + 1],
        });
        assert_eq!(answer[N..], [UNTOUCHED; 2], "{case:?}");
        assert_eq!(about(&output, lengths.output), [FILLER; 2 * MARGIN]);
        assert_eq!(about(&code, lengths.code), [FILLER; 2 * MARGIN]);
        let values_kept = about(&self.values, lengths.values) == values_about;
        let returns_kept = about(&self.returns, lengths.returns) == returns_about;
        assert!(values_kept && returns_kept, "{case:?}");
        Gave {
            number,
            slots: answer[..N].try_into().unwrap(),
            output: lent(&mut output, lengths.output).to_vec(),
            code: lent(&mut code, lengths.code).to_vec(),
        }
    }

    /// With lent slices and, where they are enough, as a safe function, which
    /// answers and writes the same.
    pub fn call<const N: usize, C: RunCall<N>>(&mut self, case: &C) -> Gave<N> {
        let gave = self.call_into(case);
        if gave.number != 13 {
            let (answer, output) = case.call_in(&mut self.work, OTHER_FILLER);
            assert_eq!(answer, C::safe_answer(&gave), "{case:?}");
            let length = gave.slots[C::WRITTEN] as usize;
            let (written, rest) = output.split_at(length);
            let untouched = rest.iter().all(|&byte| byte == OTHER_FILLER);
            assert!(written == &gave.output[..length] && untouched, "{case:?}");
        }
        gave
    }

    /// The library gives this. Much fuel comes after fuel for one unit more
    /// than the run takes, so that a run without end is reported, too.
    pub fn assert_gives<const N: usize, C>(&mut self, name: &str, case: &C, expected: &Gave<N>)
    where
        C: RunCall<N>,
    {
        let more = expected.slots[1] + 1;
        let (_, _, fuel) = case.given();
        if fuel > more {
            let gave = self.call_into(&case.with_fuel(more));
            assert_eq!(gave, *expected, "{name}, with fuel {more}: {case:?}");
        }
        assert_eq!(self.call(case), *expected, "{name}: {case:?}");
    }

    /// What the library gives, which is what the reference gives.
    pub fn answer<const N: usize>(&mut self, case: &impl RunCall<N>) -> Gave<N> {
        let gave = case.reference();
        self.assert_gives("not as the reference", case, &gave);
        gave
    }
}

/// In a work space of its own the library gives this, which is not 13.
pub fn assert_gives_alone<const N: usize, C>(name: &str, case: &C, expected: &Gave<N>)
where
    C: RunCall<N>,
{
    let (first, input, fuel) = case.given();
    let mut output = vec![FILLER; case.lengths().output];
    let answer = C::SAFE_ALONE(first, input, fuel, &mut output);
    assert_eq!(answer, C::safe_answer(expected), "{name}");
    assert!(output == expected.output, "{name}");
}
