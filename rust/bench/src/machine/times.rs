//! What each way takes: rounds of all ways in turn, and tables of them.

use bench::{in_turn, Spread};

use crate::inputs::{Input, Program};
use crate::ways::{Lent, MEASURED, RUN};

const ROUNDS: usize = 21;

/// The seconds that each way took in a round.
pub struct Round {
    pub run: f64,
    pub prepare: f64,
    pub perform: f64,
    pub c: f64,
    pub rust: f64,
}

impl Round {
    fn of([run, prepare, perform, c, rust]: [f64; 5]) -> Round {
        Round {
            run,
            prepare,
            perform,
            c,
            rust,
        }
    }

    /// The loop of `run` alone.
    fn run_loop(&self) -> f64 {
        self.run - self.prepare
    }
}

/// What was measured of one program over one input.
pub struct Measured {
    program: &'static str,
    input: &'static str,
    /// The instructions performed in a round of a way.
    units: u64,
    rounds: Vec<Round>,
}

impl Measured {
    pub fn of(program: &Program, input: &Input) -> Measured {
        let mut lent = Lent::for_trees(&input.trees);
        let units = RUN.pass(program, &input.trees, &mut lent);
        let rounds = in_turn(ROUNDS, MEASURED, |way| {
            for _ in 0..input.passes {
                way.pass(program, &input.trees, &mut lent);
            }
        });
        Measured {
            program: program.name,
            input: input.name,
            units: units * input.passes as u64,
            rounds: rounds.into_iter().map(Round::of).collect(),
        }
    }

    fn spread(&self, of: fn(&Round) -> f64) -> Spread {
        Spread::of(self.rounds.iter().map(of))
    }
}

/// A column: its title, and what it takes of a round.
type Column = (&'static str, fn(&Round) -> f64);

const TIMES: [Column; 5] = [
    ("run", |round| round.run),
    ("loop", Round::run_loop),
    ("perform", |round| round.perform),
    ("C", |round| round.c),
    ("Rust", |round| round.rust),
];

/// What the loops take beside each other.
const LOOPS: [Column; 3] = [
    ("loop / C", |round| round.run_loop() / round.c),
    ("loop / Rust", |round| round.run_loop() / round.rust),
    ("perform / Rust", |round| round.perform / round.rust),
];

/// What `run` takes as it is called.
const CALLS: [Column; 3] = [
    ("run / C", |round| round.run / round.c),
    ("run / Rust", |round| round.run / round.rust),
    ("run / perform", |round| round.run / round.perform),
];

/// Prints a table: for each program and input a cell for each column.
fn print_table(
    measured: &[Measured],
    columns: &[Column],
    width: usize,
    cell: fn(&Measured, Spread) -> String,
) {
    print!("\n{:<9}{:<29}", "program", "input");
    columns
        .iter()
        .for_each(|(title, _)| print!("{title:>width$}"));
    println!();
    for one in measured {
        print!("{:<9}{:<29}", one.program, one.input);
        for (_, of) in columns {
            print!("{:>width$}", cell(one, one.spread(*of)));
        }
        println!();
    }
}

fn nanoseconds(measured: &Measured, seconds: Spread) -> String {
    format!("{:.2}", 1e9 * seconds.median / measured.units as f64)
}

fn ratio(_: &Measured, ratio: Spread) -> String {
    let Spread {
        least,
        median,
        greatest,
    } = ratio;
    format!("{median:.2} ({least:.2} to {greatest:.2})")
}

/// Prints the times and their ratios.
pub fn print_all(measured: &[Measured]) {
    println!("ns for each instruction performed: median of {ROUNDS} rounds, each of all ways in");
    println!("turn. run is a run of the program file, checked and translated at each call;");
    println!("loop is run less as many calls without fuel, which only check and translate,");
    println!("timed in the same round; perform, C and Rust run code translated beforehand");
    print_table(measured, &TIMES, 9, nanoseconds);
    println!("\nratios of times, the loops alone: median of the rounds (least to greatest)");
    print_table(measured, &LOOPS, 22, ratio);
    println!("\nratios of times, run as it is called: median of the rounds (least to greatest)");
    print_table(measured, &CALLS, 22, ratio);
}
