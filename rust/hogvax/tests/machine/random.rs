//! Codes made at random, with any input, fuel and output.

use std::collections::BTreeMap;
use std::fmt::Debug;

use reference::generate::code;
use reference::machine::opcode;
use reference::{instruction_at, Mark, Random};

use super::*;

/// So many cases.
const CASES: usize = if cfg!(debug_assertions) {
    20_000
} else {
    200_000
};

/// How often runs stopped at each mark, and how often a refusal hid each mark.
/// How often each opcode was performed, and control went on to the next
/// address or elsewhere.
#[derive(Default)]
struct Seen {
    marks: BTreeMap<Mark, usize>,
    hidden: BTreeMap<(u8, Mark), usize>,
    performed: BTreeMap<(u8, bool), usize>,
}

impl Seen {
    fn count(&mut self, case: &TestCase, trace: &Trace) {
        let stop = trace.stop;
        *self.marks.entry(stop.mark).or_default() += 1;
        if let (Some(told), Some(behind)) = (stop.mark.number(), stop.hidden) {
            *self.hidden.entry((told, behind)).or_default() += 1;
        }
        for pair in trace.addresses.windows(2).take(100) {
            let performed = instruction_at(&case.code, pair[0]).expect("an instruction");
            let on = pair[1] == pair[0] + 1;
            *self.performed.entry((performed.opcode, on)).or_default() += 1;
        }
    }
}

/// All that can be performed. A return goes after a call, which never stands
/// at the return's own address, so it never goes on to the next.
fn performed() -> Vec<(u8, bool)> {
    let on = (opcode::PUSH..opcode::RETURN).map(|opcode| (opcode, true));
    let elsewhere = [
        opcode::IFNOT,
        opcode::JUMP,
        opcode::READ_TAG,
        opcode::CALL,
        opcode::RETURN,
    ];
    on.chain(elsewhere.map(|opcode| (opcode, false))).collect()
}

/// All that is listed was seen, and nothing else.
fn assert_seen<T: Ord + Debug>(seen: &BTreeMap<T, usize>, mut listed: Vec<T>) {
    let rarest = seen.iter().min_by_key(|(_, &count)| count);
    println!("{} seen, the rarest is {rarest:?}", seen.len());
    listed.sort();
    assert!(seen.keys().eq(&listed), "{seen:?} and not {listed:?}");
}

#[test]
fn random_cases_are_answered_as_the_reference_does() {
    let mut random = Random::new(200);
    let mut lent = Lent::new();
    let mut seen = Seen::default();
    for _ in 0..CASES {
        let case = code::any_case(&mut random);
        let (_, trace) = lent.answer_traced(&case);
        seen.count(&case, &trace);
    }
    assert_seen(&seen.marks, code::reachable());
    assert_seen(&seen.hidden, code::hidden());
    assert_seen(&seen.performed, performed());
}
