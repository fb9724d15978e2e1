//! How a run of a checked program goes from one instruction to the next.

use std::collections::BTreeSet;

use super::branches::{branch, Branch};
use super::calls::{graph, Graph};
use super::objdump::{Instruction, Symbol};
use super::*;

/// Of 14 opcodes some may share a jump.
const FEWEST_JUMPS: usize = 12;

/// The names of a call's routine and of all that it may call.
fn reached(graph: &Graph, name: &str) -> BTreeSet<String> {
    let first = graph.names.iter().position(|one| one == name);
    let mut open = vec![first.unwrap_or_else(|| panic!("no {name} in the library"))];
    let mut places = BTreeSet::new();
    while let Some(place) = open.pop() {
        if places.insert(place) {
            open.extend(&graph.calls[place]);
        }
    }
    let names = places.iter().map(|&place| graph.names[place].clone());
    names.collect()
}

/// The instructions of a routine: up to the next one of its section.
fn instructions<'a>(object: &'a Object, routine: &Symbol) -> Vec<&'a Instruction> {
    let start = routine.address;
    let in_section = |section: &str| section == routine.section;
    let others = object.symbols.iter();
    let others = others.filter(|one| one.is_function && in_section(&one.section));
    let after = others.map(|one| one.address).filter(|&one| one > start);
    let end = after.min().unwrap_or(u64::MAX);
    let all = object.instructions.iter();
    all.filter(|one| in_section(&one.section) && (start..end).contains(&one.address))
        .collect()
}

/// The jumps of a routine to an address in a register.
fn indirect_jumps(objects: &[Object], name: &str) -> usize {
    let mut jumps = 0;
    for object in objects {
        let is_jump = |one: &&Instruction| {
            let is_call = one.text.contains("call") || one.text.starts_with("blr");
            branch(object.machine, &one.text) == Branch::Indirect && !is_call
        };
        let named = object.symbols.iter().filter(|one| one.name == name);
        for routine in named.filter(|one| one.is_function && one.is_defined()) {
            let all = instructions(object, routine);
            jumps += all.into_iter().filter(is_jump).count();
        }
    }
    jumps
}

/// The loop of checked code is in `hogvax_run`, or in a routine that it calls and
/// that neither performs any code nor checks and translates.
#[test]
fn a_run_of_checked_code_jumps_from_each_instruction_to_the_next() {
    let objects = disassembled(&archives::whole());
    let graph = graph(&objects);
    let others = ["hogvax_perform", "hogvax_translate"].map(|name| reached(&graph, name));
    let mut own = reached(&graph, "hogvax_run");
    own.retain(|name| others.iter().all(|other| !other.contains(name)));
    let counted = |name: &String| (indirect_jumps(&objects, name), name.clone());
    let found = own.iter().map(counted).max().expect("hogvax_run itself");
    assert!(
        found.0 >= FEWEST_JUMPS,
        "of the routines of a run alone, {own:?}, the one with the most indirect jumps is \
         {found:?}; in its loop the compiler is to copy the jump to the next instruction into \
         the arm of every opcode, {FEWEST_JUMPS} at least: where it does not, a run gets slower \
         (docs/PROVING.md, Speed)"
    );
}
