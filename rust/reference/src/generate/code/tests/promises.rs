//! What each kind of case promises.

use super::*;
use crate::machine::{instruction_at, opcode};
use crate::machine::{INSTRUCTION_BYTES, INSTRUCTION_LIMIT};

#[test]
fn equal_seeds_give_equal_cases() {
    assert_eq!(cases(50, any_case), cases(50, any_case));
    assert_ne!(cases(50, any_case), cases(51, any_case));
}

#[test]
fn a_sequence_has_valid_opcodes_and_all_of_them() {
    let mut seen = [false; 14];
    for case in cases(52, sequence) {
        let count = case.code.len() / INSTRUCTION_BYTES;
        assert_eq!(case.code.len(), INSTRUCTION_BYTES * count);
        for address in 0..count {
            let found = instruction_at(&case.code, address).expect("a whole instruction");
            seen[usize::from(found.opcode)] = true;
        }
    }
    assert_eq!(seen, [true; 14]);
}

#[test]
fn running_cases_go_on_for_a_while() {
    let moderate = |case: &TestCase| case.with_fuel(MODERATE_FUEL);
    let cases: Vec<TestCase> = cases(53, running).iter().map(moderate).collect();
    let traces = traces(&cases);
    let lasting = |units| {
        let runs = traces.iter().filter(|trace| trace.addresses.len() >= units);
        100 * runs.count() / traces.len()
    };
    println!("{}% 20 units, {}% 100 units", lasting(20), lasting(100));
    assert!(lasting(20) > 40);
    assert!(lasting(100) > 20);
    assert!(cause_seen(&traces, Cause::EndedWithNone));
    assert!(cause_seen(&traces, Cause::EndedWithOne));
}

#[test]
fn arbitrary_bytes_have_every_value_and_length() {
    let cases = cases(54, arbitrary);
    for rest in 0..INSTRUCTION_BYTES {
        let mut lengths = cases.iter().map(|case| case.code.len());
        assert!(lengths.any(|length| length % INSTRUCTION_BYTES == rest));
    }
    for byte in 0..=255 {
        assert!(cases.iter().any(|case| case.code.contains(&byte)));
    }
}

#[test]
fn code_that_is_not_whole_has_each_rest() {
    let cases = cases(55, not_whole);
    for rest in 0..INSTRUCTION_BYTES {
        let mut lengths = cases.iter().map(|case| case.code.len());
        let found = lengths.any(|length| length % INSTRUCTION_BYTES == rest);
        assert_eq!(found, rest != 0, "{rest}");
    }
    assert!(cause_seen(&traces(&cases), Cause::InstructionNotWhole));
}

#[test]
fn long_code_is_too_long_and_control_comes_to_its_limit() {
    let cases = cases(56, long);
    let traces = traces(&cases);
    let mut reached = [0; 2];
    for (case, trace) in cases.iter().zip(&traces) {
        assert!(case.code.len() / INSTRUCTION_BYTES > INSTRUCTION_LIMIT);
        let last = trace.addresses.contains(&(INSTRUCTION_LIMIT - 1));
        let stopped_there = trace.address >= INSTRUCTION_LIMIT - 1;
        assert!(last || stopped_there, "{case:?}");
        reached[0] += usize::from(last);
        reached[1] += usize::from(trace.address == INSTRUCTION_LIMIT);
    }
    assert!(reached.iter().all(|&count| count > OF_A_KIND / 5));
    assert!(cause_seen(&traces, Cause::AddressTooHigh));
    assert!(cases.iter().any(|case| case.code.len() == 8 << 16));
}

#[test]
fn sensible_runs_stop_for_every_number() {
    let cases = cases(57, sensible);
    let traces = traces(&cases);
    for number in [None].into_iter().chain([14, 15, 16, 17, 18, 21].map(Some)) {
        let mut numbers = traces.iter().map(|trace| trace.stop.mark.number());
        assert!(numbers.any(|told| told == number), "{number:?}");
    }
    let filled = |case: &TestCase| {
        let (ran, _) = case.perform();
        ran.refusal.is_none() && ran.written > 0 && ran.written == case.output
    };
    assert!(cases.iter().any(filled));
}

#[test]
fn a_full_stack_refuses_each_push_with_and_without_input() {
    let mut random = Random::new(58);
    let cases: Vec<TestCase> = (0..300).map(|_| full_stack(&mut random)).collect();
    let traces = traces(&cases);
    let surplus = |opcode| Mark::at(opcode, Cause::SurplusWords);
    assert!(seen(&traces, surplus(opcode::PUSH), None));
    assert!(seen(&traces, surplus(opcode::GET), None));
    let label = |cause| Some(Mark::at(opcode::READ_NUMBER, cause));
    for hidden in [None, label(Cause::InputEnded), label(Cause::LabelNotWhole)] {
        assert!(seen(&traces, surplus(opcode::READ_NUMBER), hidden));
    }
}

#[test]
fn deep_calls_are_refused_with_and_without_words() {
    let mut random = Random::new(59);
    let cases: Vec<TestCase> = (0..300).map(|_| deep_calls(&mut random)).collect();
    let traces = traces(&cases);
    let at_call = |cause| Mark::at(opcode::CALL, cause);
    let open = at_call(Cause::CallsOpen);
    assert!(seen(&traces, open, None));
    assert!(seen(&traces, at_call(Cause::MissingWords), Some(open)));
    assert!(seen(&traces, at_call(Cause::WordsBelowBase), Some(open)));
    assert!(seen(&traces, at_call(Cause::WordsBelowBase), None));
}
