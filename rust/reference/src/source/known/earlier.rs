//! Files that the rows or pass one refuse, with too little of everything: the
//! earlier row is reported.

use crate::machine::{RETURN_WORDS, VALUE_WORDS};
use crate::order::known as order;
use crate::translate::known as translate;
use crate::tree::Refusal;

use super::{file, refused, with_answer, Known, SourceCase};

/// Space enough, then each part too short, then both.
const SPACES: [[usize; 2]; 4] = [
    [VALUE_WORDS, RETURN_WORDS],
    [VALUE_WORDS - 1, RETURN_WORDS],
    [VALUE_WORDS, RETURN_WORDS - 1],
    [0, 0],
];

/// The refused files of the translator and the programs that pass one
/// refuses, with every space, on no input, with fuel 0 and no output.
pub fn runs() -> Vec<Known> {
    let files = translate::all().into_iter();
    let files = files.filter_map(|known| Some((known.name, known.file, known.answer.err()?)));
    let programs = order::all().into_iter();
    let programs =
        programs.filter_map(|known| Some((known.name, file(&known.program), known.answer.err()?)));
    let refused = files.map(|file| ("file", file));
    let refused = refused.chain(programs.map(|program| ("program", program)));
    refused
        .filter(|(_, (_, _, refusal))| refusal.number <= 10)
        .flat_map(|(what, (name, file, refusal))| {
            let name = format!("{what}, {name}");
            SPACES.map(|space| run(&name, &file, refusal, space))
        })
        .collect()
}

fn run(name: &str, file: &[u8], refusal: Refusal, space: [usize; 2]) -> Known {
    let [values, returns] = space;
    let case = SourceCase {
        values,
        returns,
        ..SourceCase::new(file, &[], 0, 0)
    };
    let answer = refused(refusal.number, refusal.position, 0);
    with_answer(&format!("{name}, {space:?}"), case, answer, &[])
}
