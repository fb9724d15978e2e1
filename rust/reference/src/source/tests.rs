use std::collections::BTreeSet;

use super::*;
use crate::machine::FILLER;
use crate::order::known as order;
use crate::program::lay_out;

mod evaluated;
mod generated;
mod measured;
mod prepared;

#[test]
fn known_runs() {
    for known in known::all() {
        let (sourced, output) = known.case.perform();
        assert_eq!(sourced, known.answer, "{}", known.name);
        assert_eq!(output, known.output, "{}", known.name);
    }
}

#[test]
fn known_runs_have_names_of_their_own() {
    let mut names = BTreeSet::new();
    for known in known::all() {
        assert!(names.insert(known.name.clone()), "{}", known.name);
    }
}

/// Every number but 11 and 12, which are pass two's, and 19.
#[test]
fn known_runs_answer_every_number() {
    let refusals = known::all().into_iter().map(|known| known.answer.refused);
    let numbers: BTreeSet<u8> = refusals.flatten().map(|refusal| refusal.number).collect();
    let others = [11, 12, 19];
    let all = (1..=21).filter(|number| !others.contains(number));
    assert_eq!(numbers, all.collect());
}

/// "The source run needs pass one only": programs that pass two refuses are
/// run.
#[test]
fn known_programs_not_in_order_are_run() {
    let leaf = [1, 0, 0, 0, 0];
    let mut count = 0;
    for known in order::all() {
        if !matches!(known.answer, Err(Refusal { number: 11.., .. })) {
            continue;
        }
        let file = lay_out(&known.program.records());
        let (sourced, output) = SourceCase::new(&file, &leaf, 0, 3).perform();
        let answer = Refusal {
            number: 14,
            position: 0,
        };
        assert_eq!(sourced.refused, Some(answer), "{}", known.name);
        assert_eq!(output, [FILLER; 3], "{}", known.name);
        count += 1;
    }
    assert!(count >= 30, "{count}");
}

#[test]
fn answers_in_words() {
    let ended = Sourced {
        refused: None,
        begun: 14,
        written: 11,
        number: -1,
        tips: 2,
        depth: 1,
    };
    let words = "ended begun 14 written 11 number -1 tips 2 depth 1";
    assert_eq!(ended.to_string(), words);
    let refused = Sourced::refused(
        Refusal {
            number: 18,
            position: 0,
        },
        1_024,
    );
    let words = "refused 18 0 begun 1024 written 0 number 0 tips 0 depth 0";
    assert_eq!(refused.to_string(), words);
}
