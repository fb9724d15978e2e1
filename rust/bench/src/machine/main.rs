//! The proved stream runs' speed, that of a program file and that of any code,
//! beside a plain machine in C and one in safe Rust.

#![deny(unsafe_code)]

#[allow(unsafe_code)]
mod computed_goto;
mod count;
mod inputs;
mod safe;
#[cfg(test)]
mod tests;
mod times;
mod ways;

use std::env;

use inputs::{inputs, programs, Input, Program};
use times::Measured;
use ways::{Lent, WHOLE};

/// All ways give the same answer and the same output over every tree.
fn assert_same(program: &Program, input: &Input) {
    for tree in &input.trees {
        let [run, others @ ..] = WHOLE.map(|way| {
            let mut lent = Lent::new(tree.len());
            let ran = way.go(program, tree, &mut lent);
            (way.name, ran, lent.output)
        });
        for (name, ran, output) in others {
            let same = (ran, &output) == (run.1, &run.2);
            assert!(same, "{name}: {}, {}", program.name, input.name);
        }
    }
}

fn print_all_counts(programs: &[Program]) {
    if !count::has_valgrind() {
        println!("\nmachine instructions are not counted: there is no valgrind");
        return;
    }
    println!("\nmachine instructions for each instruction performed, 100 trees of 1,000 tips;");
    println!("of loop: those of run less those of as many calls without fuel\n");
    println!(
        "{:<9}{:>9}{:>9}{:>9}{:>9}",
        "program", "loop", "perform", "C", "Rust"
    );
    for program in programs {
        let [run_loop, perform, c, rust] = count::per_unit(program);
        println!(
            "{:<9}{run_loop:>9.2}{perform:>9.2}{c:>9.2}{rust:>9.2}",
            program.name
        );
    }
}

fn compare() {
    let programs = programs();
    let mut measured = Vec::new();
    for program in &programs {
        for input in inputs(program) {
            assert_same(program, &input);
            measured.push(Measured::of(program, &input));
        }
    }
    times::print_all(&measured);
    print_all_counts(&programs);
}

fn main() {
    let words: Vec<String> = env::args().skip(1).collect();
    match &words[..] {
        [word, way, program] if word == count::WORD => count::counted(way, program),
        _ => compare(),
    }
}
