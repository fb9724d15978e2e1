//! Sums at the ends of the range, in both runs.

use std::collections::BTreeMap;

use super::evaluated::{breaks, ends, smaller_fuels, Subject};
use crate::evaluate::Evaluation;
use crate::generate::sums::program_and_tree;
use crate::machine::{FILLER, OPEN_LIMIT};
use crate::program::lay_out;
use crate::random::Random;
use crate::source::explicit_stack::Records;
use crate::source::{SourceCase, Sourced};
use crate::tree::Refusal;

/// N3: "both runs with enough fuel and output space refuse it". The stream run
/// has written what the evaluation had given, and perhaps the tag of the leaf
/// whose number it was at.
fn both_refuse(subject: &Subject, record: usize, begun: u64) {
    let room = 3 * begun as usize;
    let (ran, bytes) = subject.run(u64::MAX, room);
    let refusal = |position| Refusal {
        number: 21,
        position,
    };
    assert_eq!(ran.refusal, Some(refusal(ran.read)), "{subject:?}");
    let records = subject.program.records();
    let outcome = Records::new(&records).evaluate(&subject.tokens, u64::MAX, OPEN_LIMIT);
    assert_eq!(outcome.refused, Some(refusal(record)), "{subject:?}");
    let (wrote, rest) = bytes[..ran.written].split_at(outcome.written.len());
    assert_eq!(wrote, outcome.written, "{subject:?}");
    assert!(rest.is_empty() || rest == [1], "{subject:?}");
    let case = SourceCase::new(&lay_out(&records), &subject.tokens, u64::MAX, room);
    let expected = Sourced {
        refused: Some(refusal(record)),
        begun,
        written: 0,
        number: 0,
        tips: 0,
        depth: 0,
    };
    assert_eq!(
        case.perform(),
        (expected, vec![FILLER; room]),
        "{subject:?}"
    );
}

/// Both the least and the greatest number come up as sums, and as results.
#[test]
fn sums_at_the_ends_of_the_range() {
    let mut random = Random::new(404);
    let mut seen: BTreeMap<&str, usize> = BTreeMap::new();
    for _ in 0..600 {
        let (program, tree) = program_and_tree(&mut random);
        let subject = Subject::new(program, tree);
        let mut see = |case, here| *seen.entry(case).or_insert(0) += usize::from(here);
        match subject.evaluate(OPEN_LIMIT) {
            Evaluation::Ended(ended) => {
                ends(&mut random, &subject, &ended);
                smaller_fuels(&mut random, &subject, &ended);
                see("ended with the least", ended.value.number() == i32::MIN);
                see("ended with the greatest", ended.value.number() == i32::MAX);
            }
            Evaluation::SumOutOfRange {
                record,
                begun,
                units,
            } => {
                breaks(&mut random, &subject, begun, units);
                both_refuse(&subject, record, begun);
                see("21", true);
            }
            _ => panic!("{subject:?}"),
        }
        let sums = subject.trace(u64::MAX, 10_000).end_sums;
        see("a sum that is the least", sums.least > 0);
        see("a sum that is the greatest", sums.greatest > 0);
    }
    println!("{seen:?}");
    assert_eq!(seen.len(), 5, "{seen:?}");
    assert!(seen.values().all(|&count| count >= 30), "{seen:?}");
}
