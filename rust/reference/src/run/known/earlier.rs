//! Files that the rows or the passes refuse, with too little space: the
//! earlier row is reported.

use crate::machine::{FILLER, RETURN_WORDS, VALUE_WORDS};
use crate::translate::known;
use crate::tree::Refusal;

use super::{refused, Known, RunCase, CODE_BYTES};

/// Space enough, then each buffer too short, then all.
const SPACES: [[usize; 3]; 5] = [
    [CODE_BYTES, VALUE_WORDS, RETURN_WORDS],
    [0, VALUE_WORDS, RETURN_WORDS],
    [CODE_BYTES, VALUE_WORDS - 1, RETURN_WORDS],
    [CODE_BYTES, VALUE_WORDS, RETURN_WORDS - 1],
    [0, 0, 0],
];

/// Every refused file of the translator with every space, on no input and
/// with fuel 0.
pub fn runs() -> Vec<Known> {
    let files = known::all().into_iter();
    let files = files.filter_map(|known| Some((known.name, known.file, known.answer.err()?)));
    files
        .flat_map(|(name, file, refusal)| SPACES.map(|space| run(name, &file, refusal, space)))
        .collect()
}

fn run(name: &str, file: &[u8], refusal: Refusal, space: [usize; 3]) -> Known {
    let [code, value_words, return_words] = space;
    let case = RunCase {
        value_words,
        return_words,
        ..RunCase::new(file, &[], 0, 5, code)
    };
    Known {
        name: format!("{name}, {space:?}"),
        answer: refused(refusal.number, refusal.position),
        output: vec![FILLER; case.output],
        code: vec![FILLER; case.code],
        case,
    }
}
