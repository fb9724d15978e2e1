//! The source run against the source evaluation, which knows neither fuel nor
//! output.

use std::collections::BTreeMap;

use super::*;
use crate::evaluate::{evaluate, Ended, Evaluation};
use crate::generate::sources::{any_program_and_tree, MODERATE};
use crate::program::{kind, Program, Record};
use crate::random::Random;
use crate::tree::{tree_measures, Tree};

/// A program that passes pass one, and a tree.
struct Subject {
    program: Program,
    file: Vec<u8>,
    tree: Tree,
    tokens: Vec<u8>,
}

impl Subject {
    fn new(program: Program, tree: Tree) -> Subject {
        Subject {
            file: lay_out(&program.records()),
            tokens: tree.tokens(),
            program,
            tree,
        }
    }

    /// The run, which answers the same whatever stands after the tree, and
    /// which leaves untouched what it doesn't write.
    fn run(&self, random: &mut Random, fuel: u64, output: usize) -> (Sourced, Vec<u8>) {
        let mut case = SourceCase::new(&self.file, &self.tokens, fuel, output);
        let (sourced, bytes) = case.perform();
        let more = 1 + random.below(6);
        case.input.extend((0..more).map(|_| random.byte()));
        assert_eq!(case.perform(), (sourced, bytes.clone()), "{case:?}");
        let written = sourced.written;
        assert!(bytes[written..].iter().all(|&byte| byte == FILLER));
        (sourced, bytes[..written].to_vec())
    }

    /// The run is refused so, at 0, and nothing is written.
    fn refused(&self, random: &mut Random, given: (u64, usize), number: u8, begun: u64) {
        let refusal = Refusal {
            number,
            position: 0,
        };
        self.refused_at(random, given, refusal, begun);
    }

    /// The run is refused so with this fuel and output.
    fn refused_at(
        &self,
        random: &mut Random,
        (fuel, output): (u64, usize),
        refusal: Refusal,
        begun: u64,
    ) {
        let (sourced, _) = self.run(random, fuel, output);
        let answer = Sourced::refused(refusal, begun);
        assert_eq!(sourced, answer, "{:?}", self.program.functions);
    }
}

/// Fuel and output enough, then less of each.
fn ends(random: &mut Random, subject: &Subject, ended: &Ended) {
    let (begun, result) = (ended.begun, ended.value.bytes());
    let measures = tree_measures(&subject.tokens).expect("a tree");
    let answer = Sourced {
        refused: None,
        begun,
        written: result.len(),
        number: ended.value.number(),
        tips: measures.tips,
        depth: measures.depth,
    };
    for fuel in [begun, begun + 1, u64::MAX] {
        let room = result.len() + random.below(7);
        let expected = (answer, result.clone());
        assert_eq!(subject.run(random, fuel, room), expected);
    }
    let mut fuels: Vec<u64> = (0..begun.min(20)).collect();
    fuels.extend([random.below(begun as usize) as u64, begun - 1]);
    for fuel in fuels {
        let room = random.below(result.len() + 1);
        subject.refused(random, (fuel, result.len()), 14, fuel);
        subject.refused(random, (fuel, room), 14, fuel);
    }
    for _ in 0..result.len().min(5) {
        let room = random.below(result.len());
        subject.refused(random, (begun, room), 17, begun);
        subject.refused(random, (u64::MAX, result.len() - 1), 17, begun);
    }
}

/// 18 with fuel for the Call that is refused, 14 with less.
fn too_many(random: &mut Random, subject: &Subject, begun: u64) {
    let room = random.below(100);
    for fuel in [begun, begun + 1, u64::MAX] {
        subject.refused(random, (fuel, room), 18, begun);
    }
    let part = random.below(begun as usize) as u64;
    for fuel in [0, part, begun - 1] {
        subject.refused(random, (fuel, room), 14, fuel);
    }
}

/// 21 at an Add's record with fuel for the expressions begun, whatever the
/// output, and 14 with less.
fn breaks(random: &mut Random, subject: &Subject, record: usize, begun: u64) {
    let records = Record::list(&subject.program.records());
    assert_eq!(records[record].kind, kind::ADD);
    let refusal = Refusal {
        number: 21,
        position: record,
    };
    let room = random.below(100);
    for fuel in [begun, begun + 1, u64::MAX] {
        subject.refused_at(random, (fuel, room), refusal, begun);
        subject.refused_at(random, (fuel, 0), refusal, begun);
    }
    let part = random.below(begun as usize) as u64;
    for fuel in [0, part, begun - 1] {
        subject.refused(random, (fuel, room), 14, fuel);
    }
}

#[test]
fn random_programs_on_random_trees() {
    let mut random = Random::new(411);
    let mut seen: BTreeMap<&str, usize> = BTreeMap::new();
    for _ in 0..450 {
        let (program, tree) = any_program_and_tree(&mut random);
        let subject = Subject::new(program, tree);
        if let Err(refusal) = read_tree(&subject.tokens) {
            let (sourced, _) = subject.run(&mut random, 0, 5);
            assert_eq!(sourced, Sourced::refused(refusal, 0));
            continue;
        }
        let evaluation = evaluate(&subject.program, &subject.tree, OPEN_LIMIT, MODERATE);
        let case = match &evaluation {
            Evaluation::Ended(ended) => {
                ends(&mut random, &subject, ended);
                if ended.value.bytes().is_empty() {
                    "a number"
                } else {
                    "a tree"
                }
            }
            Evaluation::TooManyOpen { begun } => {
                too_many(&mut random, &subject, *begun);
                "18"
            }
            Evaluation::TooLong => {
                let fuel = MODERATE - random.below(3) as u64;
                subject.refused(&mut random, (fuel, 0), 14, fuel);
                "14"
            }
            Evaluation::SumOutOfRange { record, begun, .. } => {
                breaks(&mut random, &subject, *record, *begun);
                "21"
            }
        };
        *seen.entry(case).or_insert(0) += 1;
    }
    println!("{seen:?}");
    assert_eq!(seen.len(), 5, "{seen:?}");
    assert!(seen.values().all(|&count| count >= 10), "{seen:?}");
}
