//! Machine instructions, counted by callgrind: the benchmark runs itself
//! under it, and only what happens inside a way's function is counted.

use std::env;
use std::io;
use std::process::{Command, Output};

use bench::trees::small_trees;

use crate::inputs::{programs, Program};
use crate::ways::{Lent, Way, MEASURED};

/// The word by which the benchmark calls itself, followed by the names of a
/// way and a program.
pub const WORD: &str = "--count";

/// The counted run: one pass over the small trees. Its units are printed.
pub fn counted(way: &str, program: &str) {
    let way = MEASURED.into_iter().find(|one| one.name == way);
    let program = programs().into_iter().find(|one| one.name == program);
    let (way, program) = (way.expect("a way"), program.expect("a program"));
    let trees = small_trees();
    let mut lent = Lent::for_trees(&trees);
    println!("{}", way.pass(&program, &trees, &mut lent));
}

pub fn has_valgrind() -> bool {
    Command::new("valgrind").arg("--version").output().is_ok()
}

/// What a counted run took, and the instructions that it performed.
struct Count {
    machine_instructions: f64,
    units: f64,
}

/// Machine instructions for each instruction performed, by `run`'s loop alone,
/// `perform`, C and Rust: of `run` those without fuel are subtracted.
pub fn per_unit(program: &Program) -> [f64; 4] {
    let [run, prepare, perform, c, rust] = MEASURED.map(|way| count(&way, program));
    let run_loop = Count {
        machine_instructions: run.machine_instructions - prepare.machine_instructions,
        ..run
    };
    [run_loop, perform, c, rust].map(|count| count.machine_instructions / count.units)
}

fn count(way: &Way, program: &Program) -> Count {
    let ran = under_callgrind(way, program).expect("valgrind runs");
    let (said, log) = (text(ran.stdout), text(ran.stderr));
    let collected = log.lines().find_map(|line| line.split_once("Collected :"));
    let counted = collected.and_then(|(_, count)| count.trim().parse().ok());
    match (counted, said.trim().parse().ok()) {
        (Some(machine_instructions), Some(units)) => Count {
            machine_instructions,
            units,
        },
        _ => panic!("no count from callgrind: {log}"),
    }
}

fn under_callgrind(way: &Way, program: &Program) -> io::Result<Output> {
    Command::new("valgrind")
        .arg("--tool=callgrind")
        .arg("--callgrind-out-file=/dev/null")
        .arg(format!("--toggle-collect={}", way.symbol))
        .arg(env::current_exe()?)
        .args([WORD, way.name, program.name])
        .output()
}

fn text(bytes: Vec<u8>) -> String {
    String::from_utf8_lossy(&bytes).into_owned()
}
