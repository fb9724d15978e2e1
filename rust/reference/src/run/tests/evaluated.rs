//! The stream run of a program's code against the source evaluation.

use std::collections::BTreeMap;

use super::*;
use crate::evaluate::{evaluate, Ended, Evaluation};
use crate::generate::evaluated::{any_program, small_tree};
use crate::machine::{assemble, TestCase, Trace, FILLER, INSTRUCTION_BYTES, OPEN_LIMIT};
use crate::program::{lay_out, Program};
use crate::random::Random;
use crate::translate::translate_program;
use crate::tree::Tree;

/// More expressions than any evaluation of these tests begins.
const LONG: u64 = 50_000_000;

/// A program that passes, its code, and a tree's tokens.
pub struct Subject {
    pub program: Program,
    pub code: Vec<u8>,
    pub tree: Tree,
    pub tokens: Vec<u8>,
}

impl Subject {
    pub fn new(program: Program, tree: Tree) -> Subject {
        let code = assemble(&translate_program(&program));
        let tokens = tree.tokens();
        Subject {
            program,
            code,
            tree,
            tokens,
        }
    }

    pub fn evaluate(&self, most_open: usize) -> Evaluation {
        evaluate(&self.program, &self.tree, most_open, LONG)
    }

    /// The stream run with so much fuel and output, which answers the same
    /// whatever stands after the tree; what it didn't write is untouched.
    pub fn perform(&self, random: &mut Random, fuel: u64, output: usize) -> (Ran, Vec<u8>) {
        let mut case = TestCase {
            code: self.code.clone(),
            input: self.tokens.clone(),
            fuel,
            output,
        };
        let (ran, bytes) = case.perform();
        let more = 1 + random.below(6);
        case.input.extend((0..more).map(|_| random.byte()));
        assert_eq!(case.perform(), (ran, bytes.clone()), "{self:?}");
        assert!(bytes[ran.written..].iter().all(|&byte| byte == FILLER));
        assert!(ran.read <= self.tokens.len() && ran.units <= fuel);
        let position = ran.refusal.map(|refusal| refusal.position);
        assert!(position.is_none_or(|position| position == ran.read && ran.number == 0));
        (ran, bytes)
    }

    /// The whole runner answers the same, and leaves the code.
    pub fn run(&self, fuel: u64, output: usize) -> (Ran, Vec<u8>) {
        let file = lay_out(&self.program.records());
        let room = self.code.len() + INSTRUCTION_BYTES;
        let case = RunCase::new(&file, &self.tokens, fuel, output, room);
        let (ran, bytes, code) = case.perform();
        assert_eq!(code[..self.code.len()], self.code, "{self:?}");
        assert!(code[self.code.len()..].iter().all(|&byte| byte == FILLER));
        (ran, bytes)
    }

    /// The same run instruction by instruction.
    pub fn trace(&self, fuel: u64, output: usize) -> Trace {
        let case = TestCase {
            code: self.code.clone(),
            input: self.tokens.clone(),
            fuel,
            output,
        };
        case.perform_traced().1
    }
}

impl std::fmt::Debug for Subject {
    fn fmt(&self, f: &mut std::fmt::Formatter<'_>) -> std::fmt::Result {
        writeln!(f, "{:?}", self.program.functions)?;
        write!(f, "{:?}", self.tree)
    }
}

fn number(ran: &Ran) -> Option<u8> {
    ran.refusal.map(|refusal| refusal.number)
}

/// An evaluation that ends with at most 1,024 calls open: with fuel 4n + 1 and
/// output enough the run ends with its result, and so it does with as much as
/// the column "units" sums up to and 1 more, which is what it takes.
pub fn ends(random: &mut Random, subject: &Subject, ended: &Ended) {
    let result = ended.value.bytes();
    let answer = Ran {
        refusal: None,
        units: ended.units + 1,
        read: subject.tokens.len(),
        written: result.len(),
        number: ended.value.number(),
    };
    assert!(answer.units <= 4 * ended.begun + 1);
    for fuel in [answer.units, 4 * ended.begun + 1, u64::MAX] {
        let room = result.len() + random.below(7);
        let (ran, bytes) = subject.perform(random, fuel, room);
        assert_eq!(ran, answer, "{subject:?}");
        assert_eq!(bytes[..result.len()], result, "{subject:?}");
        assert_eq!(subject.run(fuel, room), (ran, bytes));
    }
}

/// Every smaller fuel gives 14, and what was written is an opening part of
/// the result; all fuels up to a limit, and some of the others.
pub fn smaller_fuels(random: &mut Random, subject: &Subject, ended: &Ended) {
    let result = ended.value.bytes();
    let units = ended.units + 1;
    let all = units.min(120);
    let others = (0..10).map(|_| random.below(units as usize) as u64);
    let mut fuels: Vec<u64> = (0..all).chain(others).collect();
    fuels.push(units - 1);
    for fuel in fuels {
        let (ran, bytes) = subject.perform(random, fuel, result.len());
        assert_eq!((number(&ran), ran.units), (Some(14), fuel), "{subject:?}");
        assert_eq!(bytes[..ran.written], result[..ran.written], "{subject:?}");
    }
    let (ran, _) = subject.run(units - 1, result.len());
    assert_eq!(number(&ran), Some(14), "{subject:?}");
}

/// With less output than the result needs the run is refused 17, or 14 with
/// too little fuel.
pub fn smaller_outputs(random: &mut Random, subject: &Subject, ended: &Ended) {
    let result = ended.value.bytes();
    for _ in 0..result.len().min(8) {
        let room = random.below(result.len());
        let (ran, bytes) = subject.perform(random, u64::MAX, room);
        assert_eq!(number(&ran), Some(17), "{subject:?}");
        assert!(ran.written + 4 > room && ran.units <= ended.units);
        assert_eq!(bytes[..ran.written], result[..ran.written]);
        let (less, _) = subject.perform(random, ran.units, room);
        let same = (Some(14), ran.units, ran.read, ran.written);
        assert_eq!((number(&less), less.units, less.read, less.written), same);
    }
}

/// An evaluation that opens more than 1,024 calls: 18 with fuel enough, 14
/// with less. If it ends with more calls open, what was written is an opening
/// part of its result.
pub fn too_many(random: &mut Random, subject: &Subject, begun: u64) {
    let room = 6 * begun as usize;
    let (ran, bytes) = subject.perform(random, 4 * begun + 1, room);
    assert_eq!(number(&ran), Some(18), "{subject:?}");
    let fuels = [0, ran.units / 2, ran.units];
    for fuel in fuels {
        let (less, same) = subject.perform(random, fuel, room);
        assert_eq!((number(&less), less.units), (Some(14), fuel));
        assert_eq!(same[..less.written], bytes[..less.written]);
    }
    assert_eq!(subject.run(u64::MAX, room), (ran, bytes.clone()));
    assert_eq!(subject.trace(u64::MAX, room).open, OPEN_LIMIT);
    if let Evaluation::Ended(ended) = subject.evaluate(4 * OPEN_LIMIT) {
        let result = ended.value.bytes();
        assert_eq!(bytes[..ran.written], result[..ran.written]);
    }
}

/// An evaluation that breaks off at a sum: 21 with fuel for a unit more than
/// is performed and output enough, 14 with less fuel, 17 with less output.
pub fn breaks(random: &mut Random, subject: &Subject, begun: u64, units: u64) {
    let room = 3 * begun as usize;
    let (ran, bytes) = subject.perform(random, units + 1, room);
    assert_eq!((number(&ran), ran.units), (Some(21), units), "{subject:?}");
    for fuel in [units + 2, 4 * begun + 1, u64::MAX] {
        assert_eq!(subject.perform(random, fuel, room), (ran, bytes.clone()));
    }
    assert_eq!(subject.run(u64::MAX, room), (ran, bytes.clone()));
    let just = subject.perform(random, u64::MAX, ran.written).0;
    assert_eq!(just, ran, "{subject:?}");
    for fuel in [random.below(1 + units as usize) as u64, units / 2, units] {
        let (less, same) = subject.perform(random, fuel, room);
        assert_eq!((number(&less), less.units), (Some(14), fuel), "{subject:?}");
        assert_eq!(same[..less.written], bytes[..less.written]);
        let all = (less.read, less.written) == (ran.read, ran.written);
        assert!(fuel < units || all, "{subject:?}");
    }
    if ran.written > 0 {
        let room = random.below(ran.written);
        let (less, same) = subject.perform(random, u64::MAX, room);
        assert_eq!(number(&less), Some(17), "{subject:?}");
        assert_eq!(same[..less.written], bytes[..less.written]);
    }
}

/// The branch that an instruction took, for those that have two.
fn performed(subject: &Subject, trace: &Trace) -> BTreeMap<(u8, u8, bool), usize> {
    let mut counts = BTreeMap::new();
    for pair in trace.addresses.windows(2) {
        let bytes = &subject.code[pair[0] * INSTRUCTION_BYTES..];
        let branches = matches!(bytes[0], 3 | 10);
        let taken = branches && pair[1] != pair[0] + 1;
        *counts.entry((bytes[0], bytes[1], taken)).or_insert(0) += 1;
    }
    counts
}

#[test]
fn random_programs_on_random_trees() {
    let mut random = Random::new(401);
    let mut seen: BTreeMap<&str, usize> = BTreeMap::new();
    let mut instructions = BTreeMap::new();
    for _ in 0..1_800 {
        let program = any_program(&mut random);
        let tree = small_tree(&mut random);
        let subject = Subject::new(program, tree);
        let case = match subject.evaluate(OPEN_LIMIT) {
            Evaluation::Ended(ended) => {
                ends(&mut random, &subject, &ended);
                smaller_fuels(&mut random, &subject, &ended);
                smaller_outputs(&mut random, &subject, &ended);
                let trace = subject.trace(u64::MAX, ended.value.bytes().len());
                for (one, count) in performed(&subject, &trace) {
                    *instructions.entry(one).or_insert(0) += count;
                }
                outcome(&ended)
            }
            Evaluation::TooManyOpen { begun } => {
                too_many(&mut random, &subject, begun);
                "18"
            }
            Evaluation::TooLong => panic!("{subject:?}"),
            Evaluation::SumOutOfRange { begun, units, .. } => {
                breaks(&mut random, &subject, begun, units);
                "21"
            }
        };
        *seen.entry(case).or_insert(0) += 1;
    }
    println!("{seen:?}");
    let cases = ["a number", "a leaf", "a node", "18", "21"];
    assert!(cases.iter().all(|case| seen[case] >= 50), "{seen:?}");
    // Ten opcodes with one way to go on, both ways of ifnot and read tag,
    // calls with 0 to 4 arguments, and both returns.
    assert_eq!(instructions.len(), 10 + 2 * 2 + 5 + 2);
    assert!(
        instructions.values().all(|&count| count >= 50),
        "{instructions:?}"
    );
}

fn outcome(ended: &Ended) -> &'static str {
    match (ended.value.bytes().len(), &ended.value) {
        (0, _) => "a number",
        (5, _) => "a leaf",
        _ => "a node",
    }
}
