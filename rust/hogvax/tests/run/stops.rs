//! Random programs that pass the checks, on any input, with any fuel and any
//! output: everywhere that a run can stop, and every instruction.

use std::collections::BTreeMap;
use std::fmt::Debug;

use reference::generate::evaluated::{any_program, small_tree};
use reference::generate::sums::program_and_tree;
use reference::generate::{damaged, tag_like_bytes};
use reference::machine::opcode::*;
use reference::{instruction_at, Cause, Mark, Random, Trace, Tree};

use super::checked::Checked;
use super::*;

/// So many programs.
const PROGRAMS: usize = if cfg!(debug_assertions) { 300 } else { 1_500 };

/// Each on so many inputs.
const INPUTS: usize = 12;

/// Whatever can come up comes up at least so often.
const LEAST: usize = PROGRAMS / 100;

/// How often runs stopped at each mark, how often the fuel was used up there,
/// and how often each instruction was performed: its opcode, its byte 1, and
/// whether a branch was taken.
#[derive(Default)]
struct Seen {
    marks: BTreeMap<Mark, usize>,
    hidden: BTreeMap<Mark, usize>,
    performed: BTreeMap<(u8, u8, bool), usize>,
}

impl Seen {
    fn count(&mut self, code: &[u8], trace: &Trace) {
        *self.marks.entry(trace.stop.mark).or_default() += 1;
        if let Some(hidden) = trace.stop.hidden {
            *self.hidden.entry(hidden).or_default() += 1;
        }
        for pair in trace.addresses.windows(2).take(200) {
            let one = instruction_at(code, pair[0]).expect("an instruction");
            let branches = [IFNOT, READ_TAG].contains(&one.opcode);
            let taken = branches && pair[1] != pair[0] + 1;
            let performed = (one.opcode, one.byte1, taken);
            *self.performed.entry(performed).or_default() += 1;
        }
    }
}

/// Where a run of a checked program can be refused, 14 aside.
fn refusals() -> Vec<Mark> {
    let marks = [
        (READ_TAG, Cause::InputEnded),
        (READ_NUMBER, Cause::InputEnded),
        (READ_NUMBER, Cause::LabelNotWhole),
        (READ_TAG, Cause::NotATag),
        (LEAF_TAG, Cause::OutputFull),
        (NODE_TAG, Cause::OutputFull),
        (WRITE_NUMBER, Cause::OutputFull),
        (WRITE_NUMBER, Cause::OutputShort),
        (CALL, Cause::CallsOpen),
        (ADD, Cause::SumOutOfRange),
    ];
    marks.map(|(opcode, cause)| Mark::at(opcode, cause)).into()
}

/// Where it can stop: never with 19.
fn stops() -> Vec<Mark> {
    let ended = [Cause::EndedWithNone, Cause::EndedWithOne];
    let fuel = [Cause::NoFuel, Cause::FuelUsedUp];
    let ended = ended.map(|cause| Mark::at(RETURN, cause));
    let others = ended.into_iter().chain(fuel.map(Mark::alone));
    others.chain(refusals()).collect()
}

/// What it performs: both ways of ifnot and read tag, calls with 0 to 4
/// arguments, and both returns.
fn performed() -> Vec<(u8, u8, bool)> {
    let plain = [PUSH, GET, ADD, JUMP, SLIDE, DROP];
    let others = [LEAF_TAG, NODE_TAG, WRITE_NUMBER, READ_NUMBER];
    let one_way = plain.into_iter().chain(others);
    let mut all: Vec<_> = one_way.map(|opcode| (opcode, 0, false)).collect();
    all.extend([IFNOT, READ_TAG].map(|opcode| (opcode, 0, false)));
    all.extend([IFNOT, READ_TAG].map(|opcode| (opcode, 0, true)));
    all.extend([0, 1, 2, 3, 4].map(|arguments| (CALL, arguments, false)));
    all.extend([0, 1].map(|kept| (RETURN, kept, false)));
    all
}

/// All that is listed was seen often enough, and nothing else.
fn assert_seen<T: Ord + Debug>(seen: &BTreeMap<T, usize>, mut listed: Vec<T>) {
    let rarest = seen.iter().min_by_key(|(_, &count)| count);
    println!("{} seen, the rarest is {rarest:?}", seen.len());
    listed.sort();
    assert!(seen.keys().eq(&listed), "{seen:?} and not {listed:?}");
    assert!(seen.values().all(|&count| count >= LEAST), "{seen:?}");
}

/// A tree's tokens, whole, damaged or with bytes behind them, or bytes that are
/// often tags, or any bytes.
fn any_input(random: &mut Random, tree: &Tree) -> Vec<u8> {
    let tokens = tree.tokens();
    let length = random.below(40);
    match random.below(8) {
        0..=2 => tokens,
        3 | 4 => damaged(random, &tokens),
        5 => [tokens, tag_like_bytes(random, length)].concat(),
        6 => tag_like_bytes(random, length),
        _ => (0..length).map(|_| random.byte()).collect(),
    }
}

/// Little fuel, or more than most runs take.
fn any_fuel(random: &mut Random) -> u64 {
    let most = random.pick(&[1, 10, 100, 1_000]);
    match random.below(2) {
        0 => random.below(most) as u64,
        _ => 50_000,
    }
}

/// Little room, or more than most runs need.
fn any_room(random: &mut Random) -> usize {
    let most = random.pick(&[1, 8, 40, 200]);
    match random.below(2) {
        0 => random.below(most),
        _ => 10_000,
    }
}

/// A checked program, and a tree for it.
fn any_checked(random: &mut Random) -> (Checked, Tree) {
    let (program, tree) = match random.below(8) {
        0 => program_and_tree(random),
        _ => (any_program(random), small_tree(random)),
    };
    (Checked::new("a random program", file(&program)), tree)
}

/// Every stop and every instruction comes up. With fuel for what was performed
/// before a refusal, and no more, it is 14: the fuel is looked at first.
#[test]
fn random_programs_on_any_input() {
    let random = &mut Random::new(384);
    let (mut lent, mut seen) = (Lent::exact(), Seen::default());
    for _ in 0..PROGRAMS {
        let (program, tree) = any_checked(random);
        for _ in 0..INPUTS {
            let input = any_input(random, &tree);
            let case = program.case(&input, any_fuel(random), any_room(random));
            let (gave, trace) = program.traced(&mut lent, &case);
            seen.count(program.code(), &trace);
            if ![0, 14].contains(&gave.number) {
                let case = case.with_fuel(gave.ran().units);
                let (less, trace) = program.traced(&mut lent, &case);
                assert_eq!(less.number, 14, "{case:?}");
                seen.count(program.code(), &trace);
            }
        }
    }
    assert_seen(&seen.marks, stops());
    assert_seen(&seen.hidden, refusals());
    assert_seen(&seen.performed, performed());
}
