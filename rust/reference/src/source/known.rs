//! Source runs with all that they answer: document 01's worked cases, the
//! known evaluations, tips and depth, deep trees and programs, work space that
//! is too short, and files that are refused.

use crate::machine::known::programs::parsed;
use crate::machine::known::text::{bytes, field};
use crate::machine::FILLER;
use crate::order::known::text::program;
use crate::program::{lay_out, Program};
use crate::tree::Refusal;

use super::{SourceCase, Sourced};

mod deep;
mod earlier;
mod evaluated;
mod measured;
mod space;
mod worked;

/// A source run and all that it answers.
#[derive(Clone, Debug)]
pub struct Known {
    /// What it shows.
    pub name: String,
    pub case: SourceCase,
    pub answer: Sourced,
    /// The whole output after the run.
    pub output: Vec<u8>,
}

/// All of them; the first is document 01's Grow with fuel 14.
pub fn all() -> Vec<Known> {
    let tables = [
        worked::CASES,
        worked::NOT_IN_ORDER,
        worked::INPUTS,
        worked::REFUSALS,
        measured::SHAPES,
        measured::REFUSALS,
    ];
    let mut all: Vec<Known> = tables.into_iter().flat_map(table).collect();
    all.extend(evaluated::runs());
    all.extend(deep::runs());
    all.extend(space::runs());
    all.extend(earlier::runs());
    all
}

/// A table with a run in each line: what it shows; the functions; what is
/// given, which is `input BYTES`, `room BYTES` for the length of the output,
/// and `fuel COUNT`; and the answer, which is `ended`, `ended with NUMBER` or
/// `refused NUMBER at POSITION`, then `begun`, `tips`, `depth` and `wrote
/// BYTES`. Left out, fuel is the greatest, and the others are empty or 0.
fn table(text: &'static str) -> Vec<Known> {
    let lines = text.lines().filter(|line| !line.is_empty());
    lines.map(known).collect()
}

fn known(line: &str) -> Known {
    let columns: Vec<&str> = line.split('|').map(str::trim).collect();
    let [name, functions, given, result] = columns[..] else {
        panic!("not four columns: {line}");
    };
    let input = bytes(field(given, "input").unwrap_or(""));
    let fuel = field(given, "fuel").map_or(u64::MAX, parsed);
    let room = field(given, "room").map_or(0, parsed);
    let wrote = bytes(field(result, "wrote").unwrap_or(""));
    let case = SourceCase::new(&file(&program(functions)), &input, fuel, room);
    with_answer(name, case, answer(result), &wrote)
}

/// The answer in its column, nothing being written.
fn answer(text: &str) -> Sourced {
    let count = |word| field(text, word).map_or(0, parsed::<usize>);
    let (begun, measured) = (count("begun") as u64, (count("tips"), count("depth")));
    let words: Vec<&str> = text.split(", ").next().unwrap_or("").split(' ').collect();
    match words[..] {
        ["ended"] => ended(begun, 0, measured),
        ["ended", "with", number] => ended(begun, parsed(number), measured),
        ["refused", number, "at", position] => {
            assert_eq!(measured, (0, 0), "{text}");
            refused(parsed(number), parsed(position), begun)
        }
        _ => panic!("no answer: {text}"),
    }
}

fn file(program: &Program) -> Vec<u8> {
    lay_out(&program.records())
}

/// Of a run on a tree with these tips and this depth.
fn ended(begun: u64, number: i32, (tips, depth): (usize, usize)) -> Sourced {
    Sourced {
        refused: None,
        begun,
        written: 0,
        number,
        tips,
        depth,
    }
}

/// N5: "A refusal of the reader or the source run gives 0 for both."
fn refused(number: u8, position: usize, begun: u64) -> Sourced {
    Sourced {
        refused: Some(Refusal { number, position }),
        begun,
        written: 0,
        number: 0,
        tips: 0,
        depth: 0,
    }
}

/// The run with `wrote` at the start of its output. The rest is untouched.
fn with_answer(name: &str, case: SourceCase, answer: Sourced, wrote: &[u8]) -> Known {
    let mut output = vec![FILLER; case.output];
    output[..wrote.len()].copy_from_slice(wrote);
    Known {
        name: name.to_owned(),
        case,
        answer: Sourced {
            written: wrote.len(),
            ..answer
        },
        output,
    }
}
