//! Programs as text: the text reader, and the texts of program files.

mod damage;
mod faults;
mod layouts;
mod limits;
mod numbers;
mod read;
mod round_trips;
mod show;
mod written;

use hogvax::assembly::read;
use reference::generate::{changed_program, order_damage, ordered, programs};
use reference::{Fault, Program, Random};

/// Document 01: "Case 0, Leaf, Add, Var 0, Const 1, Node, Call 0 on 1, Call 0
/// on 2."
const GROW: &str = "\
# Adds 1 to every label.
function 0 takes tree 0 gives tree
  Case 0
    Leaf
      Add
        Var 0
        Const 1
    Node
      Call 0 on 1
      Call 0 on 2
";

/// A program with number parameters.
const DEPTH: &str = "\
# Gives every tip its depth as its label.
function 0 takes tree 0 gives tree
  Call 1 on 0
    Const 0
function 1 takes tree 0, number 0 gives tree      # number 0: the depth of this tree
  Case 0                                          # leaf part: number 1; node part: trees 1 and 2
    Leaf
      Var 0
    Let
      Add
        Var 0
        Const 1
      Node
        Call 1 on 1
          Var 1
        Call 1 on 2
          Var 1
";

/// The names of the sample programs.
const SAMPLES: [&str; 6] = ["depth", "grow", "prune", "sum", "swap", "tips"];

/// A file of the sample programs.
fn sample(name: &str) -> Vec<u8> {
    let folder = concat!(env!("CARGO_MANIFEST_DIR"), "/../../samples/programs");
    std::fs::read(format!("{folder}/{name}")).unwrap()
}

/// What is reported of a text that can't be read.
fn fault(text: impl AsRef<[u8]>) -> String {
    match read(text.as_ref()) {
        Ok(text) => panic!("read: {text:?}"),
        Err(fault) => fault.to_string(),
    }
}

/// A program of any size whose names, types and order are right, or not in
/// some way, or left to chance.
fn any_program(random: &mut Random) -> Program {
    if random.below(4) == 0 {
        return programs::any_program(random);
    }
    let program = ordered::any_program(random);
    let fault = random.pick(&Fault::ALL);
    match random.below(3) {
        0 => program,
        1 => changed_program(random, &program),
        _ => match order_damage::apply(fault, random, &program) {
            Some((damaged, _)) => damaged,
            None => program,
        },
    }
}
