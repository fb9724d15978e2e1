//! The call graph of a static library: which routine may call which, or jump to it.
//!
//! A routine is what stands from one function's symbol to the next in its section;
//! what a compiler makes runs on into the next only where nothing gets there. A call
//! counts wherever it goes. A jump counts if it leaves the routine, or goes to the
//! routine's start, as the last call of a routine may; other jumps inside a routine
//! are its loops and tests.

use std::collections::{BTreeMap, BTreeSet};

use super::branches::{branch, Branch};
use super::objdump::{hexadecimal, Instruction, Machine, Object, Symbol};

#[derive(Debug, Default)]
pub struct Graph {
    pub names: Vec<String>,
    /// For each routine those that it may call, by their places in `names`.
    pub calls: Vec<BTreeSet<usize>>,
    /// What is called and is not there.
    pub outside: BTreeSet<String>,
    /// Branches of which it can't be told where they go.
    pub untold: Vec<String>,
}

/// An object's place among the objects, a section, and an address in it.
type Place = (usize, String, u64);

/// Where a branch goes.
enum Target {
    There(Place),
    Outside(String),
    Untold,
}

/// The graph of all routines in these objects.
pub fn graph(objects: &[Object]) -> Graph {
    let mut finder = Finder {
        objects,
        starts: BTreeMap::new(),
        graph: Graph::default(),
    };
    finder.find_starts();
    for (number, object) in objects.iter().enumerate() {
        for instruction in &object.instructions {
            finder.follow(number, instruction);
        }
    }
    finder.find_unseen();
    finder.graph
}

/// A graph in the making.
struct Finder<'a> {
    objects: &'a [Object],
    /// Where the routines start, each with its place in the graph.
    starts: BTreeMap<Place, usize>,
    graph: Graph,
}

impl Finder<'_> {
    /// Two names of one start are one routine, named by the global one.
    fn find_starts(&mut self) {
        for (number, object) in self.objects.iter().enumerate() {
            let symbols = object.symbols.iter();
            let functions = symbols.filter(|one| one.is_function && one.is_defined());
            let mut functions: Vec<&Symbol> = functions.collect();
            functions.sort_by_key(|one| !one.is_global);
            for symbol in functions {
                let place = (number, symbol.section.clone(), symbol.address);
                self.starts.entry(place).or_insert_with(|| {
                    self.graph.names.push(symbol.name.clone());
                    self.graph.calls.push(BTreeSet::new());
                    self.graph.names.len() - 1
                });
            }
        }
    }

    /// Routines whose code is not printed, as in a section of data.
    fn find_unseen(&mut self) {
        for ((number, section, address), &routine) in &self.starts {
            let mut code = self.objects[*number].instructions.iter();
            if !code.any(|one| one.section == *section && one.address == *address) {
                let name = &self.graph.names[routine];
                let fault = format!("{name}: it can't be told what is in it");
                self.graph.untold.push(fault);
            }
        }
    }

    /// The routine in which a place is.
    fn owner(&self, place: &Place) -> Option<usize> {
        let first = (place.0, place.1.clone(), 0);
        let mut before = self.starts.range(first..=place.clone());
        before.next_back().map(|(_, &routine)| routine)
    }

    /// Adds to the graph where this instruction of an object may go.
    fn follow(&mut self, number: usize, instruction: &Instruction) {
        let at = |address| (number, instruction.section.clone(), address);
        let Some(from) = self.owner(&at(instruction.address)) else {
            let fault = format!("in no routine: {instruction:?}");
            return self.graph.untold.push(fault);
        };
        let (address, is_call) = match branch(self.objects[number].machine, &instruction.text) {
            Branch::None => return,
            Branch::Indirect | Branch::Unknown => return self.untold(from, instruction),
            Branch::Jump(address) => (address, false),
            Branch::Call(address) => (address, true),
        };
        let relocations = instruction.relocations.iter();
        let mut targets: Vec<Target> = relocations
            .map(|one| relocated(self.objects, number, one))
            .collect();
        if targets.is_empty() {
            targets.push(Target::There(at(address)));
        }
        for target in targets {
            match target {
                Target::There(place) if self.goes(from, &place, is_call) => (),
                Target::Outside(name) => drop(self.graph.outside.insert(name)),
                Target::There(_) | Target::Untold => self.untold(from, instruction),
            }
        }
    }

    /// Adds a branch to a place, if a routine is there.
    fn goes(&mut self, from: usize, place: &Place, is_call: bool) -> bool {
        let Some(to) = self.owner(place) else {
            return false;
        };
        if is_call || to != from || self.starts.contains_key(place) {
            self.graph.calls[from].insert(to);
        }
        true
    }

    fn untold(&mut self, from: usize, instruction: &Instruction) {
        let Instruction { address, text, .. } = instruction;
        let name = &self.graph.names[from];
        let fault = format!("{name}: it can't be told where this goes, at {address:x}: {text}");
        self.graph.untold.push(fault);
    }
}

/// The place that a relocation names: a symbol or a section, with a number of bytes.
fn relocated(objects: &[Object], number: usize, relocation: &str) -> Target {
    let Some((name, offset)) = split(relocation) else {
        return Target::Untold;
    };
    // The processor counts from the next instruction, four bytes on.
    let offset = match objects[number].machine {
        Machine::X86_64 => offset + 4,
        Machine::Aarch64 => offset,
    };
    let own = defined(objects, name, |object, _| object == number);
    let found = match own.is_empty() {
        true => defined(objects, name, |_, is_global| is_global),
        false => own,
    };
    match &found[..] {
        [] => Target::Outside(name.to_owned()),
        [(object, section, address)] => {
            let address = address.wrapping_add_signed(offset);
            Target::There((*object, section.clone(), address))
        }
        // Which of them is not said.
        _ => Target::Untold,
    }
}

/// Where symbols of this name are defined, of those taken by object and binding.
fn defined(objects: &[Object], name: &str, takes: impl Fn(usize, bool) -> bool) -> Vec<Place> {
    let mut places = BTreeSet::new();
    for (number, object) in objects.iter().enumerate() {
        let named = object.symbols.iter().filter(|one| one.name == name);
        let taken = named.filter(|one| one.is_defined() && takes(number, one.is_global));
        places.extend(taken.map(|one| (number, one.section.clone(), one.address)));
    }
    places.into_iter().collect()
}

/// `memset-0x4` is `memset` and -4.
fn split(relocation: &str) -> Option<(&str, i64)> {
    let Some(cut) = relocation.rfind("+0x").or(relocation.rfind("-0x")) else {
        return Some((relocation, 0));
    };
    let (name, offset) = relocation.split_at(cut);
    let size = i64::try_from(hexadecimal(&offset[3..])?).ok()?;
    let is_negative = offset.starts_with('-');
    Some((name, if is_negative { -size } else { size }))
}
