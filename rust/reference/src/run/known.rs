//! Runs of program files with all that they answer: document 01's worked
//! cases, the known evaluations, and buffers that are too short.

use crate::machine::known::programs::parsed;
use crate::machine::known::text::{bytes, field};
use crate::machine::{assemble, Ran, FILLER, INSTRUCTION_BYTES, INSTRUCTION_LIMIT};
use crate::order::check;
use crate::order::known::text::program;
use crate::program::{lay_out, Program};
use crate::translate::translate_program;
use crate::tree::Refusal;

use super::RunCase;

mod earlier;
mod evaluated;
mod space;
mod worked;

/// A run and all that it answers.
#[derive(Clone, Debug)]
pub struct Known {
    /// What it shows.
    pub name: String,
    pub case: RunCase,
    pub answer: Ran,
    /// The whole output buffer after the run.
    pub output: Vec<u8>,
    /// The whole code buffer after the run.
    pub code: Vec<u8>,
}

/// All of them; the first is document 01's Grow with fuel 25.
pub fn all() -> Vec<Known> {
    let mut all = table(worked::CASES);
    all.extend(table(worked::OTHERS));
    all.push(worked::leaves_until_18());
    all.extend(evaluated::runs());
    all.extend(space::runs());
    all.extend(earlier::runs());
    all
}

/// The most bytes that code has room for.
const CODE_BYTES: usize = INSTRUCTION_BYTES * INSTRUCTION_LIMIT;

/// A table with a run in each line: what it shows; the functions; what is
/// given, which is `input BYTES`, `room BYTES` for the length of the output,
/// and `fuel UNITS`; and the answer, which is `ended`, `ended with NUMBER`,
/// `refused NUMBER` or `refused NUMBER at RECORD`, then `units`, `read` and
/// `wrote BYTES`. Left out, fuel is the greatest, and the others are empty or
/// 0.
fn table(text: &'static str) -> Vec<Known> {
    let lines = text.lines().filter(|line| !line.is_empty());
    lines.map(known).collect()
}

fn known(line: &str) -> Known {
    let columns: Vec<&str> = line.split('|').map(str::trim).collect();
    let [name, functions, given, result] = columns[..] else {
        panic!("not four columns: {line}");
    };
    let program = program(functions);
    let input = bytes(field(given, "input").unwrap_or(""));
    let fuel = field(given, "fuel").map_or(u64::MAX, parsed);
    let room = field(given, "room").map_or(0, parsed);
    let wrote = bytes(field(result, "wrote").unwrap_or(""));
    let file = lay_out(&program.records());
    let case = RunCase::new(&file, &input, fuel, room, CODE_BYTES);
    with_answer(name, case, &program, answer(result, wrote.len()), &wrote)
}

/// The answer in its column, so many bytes being written.
fn answer(text: &str, written: usize) -> Ran {
    let count = |word| field(text, word).map_or(0, parsed::<usize>);
    let first = text.split(", ").next().unwrap_or("");
    let words: Vec<&str> = first.split(' ').collect();
    let refusal = |number, position| Some(Refusal { number, position });
    let (refusal, number) = match words[..] {
        ["ended"] => (None, 0),
        ["ended", "with", number] => (None, parsed(number)),
        ["refused", number] => (refusal(parsed(number), count("read")), 0),
        ["refused", number, "at", record] => (refusal(parsed(number), parsed(record)), 0),
        _ => panic!("no answer: {text}"),
    };
    Ran {
        refusal,
        units: count("units") as u64,
        read: count("read"),
        written,
        number,
    }
}

/// The run with what it leaves in the buffers: `wrote` at the start of the
/// output, and at the start of the code buffer the program's code, unless the
/// run is refused before its first instruction. The rest is untouched.
fn with_answer(name: &str, case: RunCase, program: &Program, answer: Ran, wrote: &[u8]) -> Known {
    let mut output = vec![FILLER; case.output];
    output[..wrote.len()].copy_from_slice(wrote);
    let mut code = vec![FILLER; case.code];
    if check(&case.file).is_ok() && !matches!(answer.refusal, Some(Refusal { number: 13, .. })) {
        let bytes = assemble(&translate_program(program));
        code[..bytes.len()].copy_from_slice(&bytes);
    }
    Known {
        name: name.to_owned(),
        case,
        answer,
        output,
        code,
    }
}

/// "A run refused before its first instruction or expression answers 0 in
/// every count."
fn refused(number: u8, position: usize) -> Ran {
    Ran {
        refusal: Some(Refusal { number, position }),
        units: 0,
        read: 0,
        written: 0,
        number: 0,
    }
}
