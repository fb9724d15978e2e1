//! Explanations come from a walk of their own, which finds the fault that the
//! proved check refuses.

use std::collections::BTreeMap;

use hogvax::assembly::first_refusal;
use reference::generate::Alphabet;
use reference::{order, Program};

use super::*;

/// How often each refusal was met, by its number, and each fault of the passes.
struct Seen {
    numbers: BTreeMap<u32, usize>,
    faults: BTreeMap<Fault, usize>,
}

impl Seen {
    fn new() -> Seen {
        Seen {
            numbers: BTreeMap::new(),
            faults: BTreeMap::new(),
        }
    }

    /// The walk finds what the check answers, and the explanation is of that
    /// fault.
    fn check(&mut self, checked: &Checked) {
        let Checked { records, refused } = checked;
        assert_eq!(first_refusal(records), *refused, "{}", shown(records));
        let number = refused.map_or(0, |refused| refused.number);
        *self.numbers.entry(number).or_insert(0) += 1;
        let Some(refused) = refused else {
            return;
        };
        let explanation = explained(records, *refused);
        if let Ok(program) = Program::from_records(records) {
            let fault = order::check_program(&program).unwrap_err().fault;
            assert!(speaks_of(fault, &explanation), "{fault:?}: {explanation:?}");
            *self.faults.entry(fault).or_insert(0) += 1;
        }
    }

    /// Programs that pass and each refusal of records were met so often, and
    /// each fault of the passes.
    fn assert_various(&self, least: usize) {
        for number in [0, 4, 5, 6, 7, 8, 9, 10, 11, 12] {
            let count = self.numbers.get(&number).copied().unwrap_or(0);
            assert!(count >= least, "{number}: {:?}", self.numbers);
        }
        for fault in Fault::ALL {
            let count = self.faults.get(&fault).copied().unwrap_or(0);
            assert!(count >= least, "{fault:?}: {:?}", self.faults);
        }
    }
}

/// Whether an explanation is of this fault, and not the general sentence of its
/// number.
fn speaks_of(fault: Fault, explanation: &Explanation) -> bool {
    let message = explanation.message.as_str();
    let lists = |one, two| told(explanation, one).is_some() && told(explanation, two).is_some();
    match fault {
        Fault::VarNotBound => {
            message.starts_with("number ") && message.ends_with(" not bound here")
        }
        Fault::CaseNotBound | Fault::CallNotBound => {
            message.starts_with("tree ") && message.ends_with(" not bound here")
        }
        Fault::TreeExpected => message == "a tree is expected here, and this gives a number",
        Fault::NumberExpected => message == "a number is expected here, and this gives a tree",
        Fault::WordsAtConst | Fault::WordsAtVar | Fault::WordsAtCall => {
            message.ends_with("and this would be the 17th")
        }
        Fault::WordsAtCase => {
            message.contains("and the label of tree ") && message.ends_with(" would be the 17th")
        }
        Fault::CaseNotHead | Fault::CallNotHead => {
            is_out_of_turn(explanation) && told(explanation, "pending: tree ").is_some()
        }
        Fault::CaseWithNone | Fault::CallWithNone => {
            is_out_of_turn(explanation) && told(explanation, "pending: none").is_some()
        }
        Fault::UnequalAtCase => lists("after the leaf part: ", "after the node part: "),
        Fault::UnequalAtIfZero => lists("after the zero part: ", "after the other part: "),
        Fault::TreesLeft => told(explanation, "left: tree 0").is_some(),
        Fault::PendingFull => message.ends_with("and this Case would make it 17"),
    }
}

#[test]
fn the_walk_finds_what_the_check_refuses() {
    let mut seen = Seen::new();
    for checked in programs() {
        seen.check(checked);
    }
    seen.assert_various(25);
}

/// Every program of up to five records, and with a second function, which
/// takes a number, of up to four.
#[test]
fn the_walk_finds_what_the_check_refuses_in_short_programs() {
    let mut count = 0;
    for (alphabet, longest) in [(Alphabet::SIX_RECORDS, 5), (Alphabet::WITH_ARGUMENTS, 4)] {
        for (length, tree_valued) in (1..=longest).flat_map(|n| [(n, false), (n, true)]) {
            alphabet.every_program(length, tree_valued, &mut |program| {
                let records = program.records();
                let refused = hogvax::check_records(&records).err();
                assert_eq!(first_refusal(&records), refused, "{}", shown(&records));
                count += 1;
            });
        }
    }
    assert_eq!(count, 150_862);
}
