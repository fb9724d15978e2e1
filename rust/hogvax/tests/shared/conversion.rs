//! Calls that turn bytes into others, held against the reference: with lent
//! buffers of every length, and with more or fewer slots for the answer.

use hogvax::Refused;
use reference::{shown, Refusal};

pub type Answer = Result<Vec<u8>, Refused>;

/// A call of the library: as a safe function and into lent buffers. Beside
/// them the reference's.
pub struct Call {
    pub safe: fn(&[u8]) -> Answer,
    pub into: fn(&[u8], &mut [u8], &mut [u64]) -> u32,
    /// The safe function that turns its result back, if there is one.
    pub back: Option<fn(&[u8]) -> Answer>,
    pub reference: fn(&[u8]) -> Result<Vec<u8>, Refusal>,
    /// All that it answers: 0 where it is done, and its refusals.
    pub answers: &'static [u32],
    /// Longer than any of its results.
    pub long: usize,
}

pub fn refused(number: u8, position: usize) -> Answer {
    Err(Refused {
        number: number.into(),
        position: position as u64,
    })
}

/// 0 where the call is done, or the refusal's number.
pub fn number(answer: &Answer) -> u32 {
    answer.as_ref().map_or_else(|refused| refused.number, |_| 0)
}

/// Longer than any result of any call.
const LONGEST: usize = 40_000;

/// What stands in a lent buffer before the call. Bytes next to each other
/// differ, and so do those of one place in different blocks.
static BEFORE: [u8; LONGEST] = before();

const fn before() -> [u8; LONGEST] {
    let mut bytes = [0; LONGEST];
    let mut place = 0;
    while place < LONGEST {
        bytes[place] = (place % 251 + 3) as u8;
        place += 1;
    }
    bytes
}

/// What stands in each slot of an answer before the call.
const UNTOUCHED: u64 = 0x0123_4567_89ab_cdef;

impl Call {
    pub fn reference_answer(&self, input: &[u8]) -> Answer {
        (self.reference)(input).or_else(|refusal| refused(refusal.number, refusal.position))
    }

    /// With a lent buffer of this length and so many slots for the answer, at
    /// least two, the call gives this answer and touches nothing else.
    fn assert_told(&self, input: &[u8], length: usize, slots: usize, answer: &Answer) {
        let mut buffer = BEFORE[..length].to_vec();
        let mut told = vec![UNTOUCHED; slots];
        let number = (self.into)(input, &mut buffer, &mut told);
        let (expected, position, bytes) = match answer {
            Ok(bytes) => (0, 0, &bytes[..]),
            Err(refused) => (refused.number, refused.position, &[][..]),
        };
        let length_told = bytes.len() as u64;
        let expected = (expected, position, length_told);
        assert_eq!((number, told[0], told[1]), expected, "{}", shown(input));
        assert!(told[2..].iter().all(|&word| word == UNTOUCHED));
        let (written, rest) = buffer.split_at(bytes.len());
        assert!(written == bytes, "not the bytes: {}", shown(input));
        let untouched = rest == &BEFORE[bytes.len()..length];
        assert!(untouched, "not left as they were: {}", shown(input));
    }

    /// As `assert_told`, with one slot more than the answer takes.
    pub fn assert_lent(&self, input: &[u8], length: usize, answer: &Answer) {
        self.assert_told(input, length, 3, answer);
    }

    /// With a lent buffer of this length: 13 where it is too short for what
    /// the answer has, after all other refusals.
    pub fn assert_length(&self, input: &[u8], length: usize, answer: &Answer) {
        let short = answer.as_ref().is_ok_and(|bytes| length < bytes.len());
        let answer = if short { &refused(13, 0) } else { answer };
        self.assert_lent(input, length, answer);
    }

    /// Every so many lengths, every one near the length of the result, none
    /// and a long one.
    pub fn assert_lengths(&self, input: &[u8], step: usize) {
        let answer = (self.safe)(input);
        let need = answer.as_ref().unwrap().len();
        let few = (0..need + 40).step_by(step);
        let near = need.saturating_sub(9)..need + 9;
        for length in few.chain(near).chain([0, self.long]) {
            self.assert_length(input, length, &answer);
        }
    }

    /// With a buffer that is longer than any result by far.
    pub fn assert_much_longer(&self, input: &[u8], answer: &Answer) {
        let mut buffer = vec![0xaa; 1_000_000];
        let number = (self.into)(input, &mut buffer, &mut [0; 2]);
        assert_eq!(number == 0, answer.is_ok());
        let bytes = answer.as_deref().unwrap_or(&[]);
        assert!(buffer.starts_with(bytes));
        assert!(buffer[bytes.len()..].iter().all(|&byte| byte == 0xaa));
    }

    /// With fewer than two slots for the answer it is 13, before all other
    /// refusals and whatever the buffer, and nothing is touched.
    pub fn assert_takes_two_slots(&self, input: &[u8]) {
        for length in [0, 512, self.long] {
            for slots in 0..2 {
                let mut buffer = BEFORE[..length].to_vec();
                let mut told = [UNTOUCHED; 2];
                let number = (self.into)(input, &mut buffer, &mut told[..slots]);
                assert_eq!(number, 13);
                assert_eq!(told, [UNTOUCHED; 2]);
                assert!(buffer == BEFORE[..length]);
            }
        }
    }

    /// Slots after the first two are left, also where the buffer is short.
    pub fn assert_fills_two_slots(&self, input: &[u8], answer: &Answer) {
        for slots in [2, 3, 100] {
            self.assert_told(input, self.long, slots, answer);
            let short = answer.clone().and(refused(13, 0));
            self.assert_told(input, 0, slots, &short);
        }
    }
}

/// A call that is held against the reference, and how often it gave each
/// answer.
pub struct Checked {
    pub call: &'static Call,
    pub seen: [usize; 14],
}

impl Checked {
    pub fn new(call: &'static Call) -> Checked {
        let seen = [0; 14];
        Checked { call, seen }
    }

    /// The call gives the reference's answer, as a safe function and with
    /// lent buffers short, exact and long. What it makes is turned back.
    pub fn answer(&mut self, input: &[u8]) -> Answer {
        let answer = self.call.reference_answer(input);
        let same = (self.call.safe)(input) == answer;
        assert!(same, "not the reference's answer: {}", shown(input));
        let long = self.call.long;
        match &answer {
            Ok(bytes) => {
                let need = bytes.len();
                for length in [need - 1, need, need + 1, long] {
                    self.call.assert_length(input, length, &answer);
                }
                self.seen[13] += 1;
                if let Some(back) = self.call.back {
                    assert!(back(bytes).as_deref() == Ok(input), "not turned back");
                }
            }
            Err(_) => {
                for length in [0, long] {
                    self.call.assert_lent(input, length, &answer);
                }
            }
        }
        self.seen[number(&answer) as usize] += 1;
        answer
    }

    /// As `answer`, whatever it is.
    pub fn check(&mut self, input: &[u8]) {
        let _ = self.answer(input);
    }

    /// As `answer`, which is known to be this refusal.
    pub fn check_refused(&mut self, input: &[u8], refusal: Refusal) {
        let known = refused(refusal.number, refusal.position);
        assert_eq!(self.answer(input), known, "{}", shown(input));
    }

    /// Each of these answers was seen at least so often, and no other.
    pub fn assert_seen(&self, answers: &[u32], least: usize) {
        for (number, &count) in self.seen.iter().enumerate() {
            let right = if answers.contains(&(number as u32)) {
                count >= least
            } else {
                count == 0
            };
            assert!(right, "answer {number}: {count} times");
        }
    }

    /// Every answer of the call was seen at least so often.
    pub fn assert_all_seen(&self, least: usize) {
        self.assert_seen(self.call.answers, least);
    }
}
