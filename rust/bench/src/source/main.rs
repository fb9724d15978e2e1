//! The proved source run's speed beside a recursive evaluation in safe Rust,
//! which is the reference implementation's.

#![forbid(unsafe_code)]

mod inputs;
#[cfg(test)]
mod tests;
mod ways;

use bench::programs::{programs, Program};
use bench::{in_turn, seconds, Spread};
use reference::source::{prepared, Prepared};

use inputs::{inputs, Input};
use ways::{pass, sourced, Way, WAYS};

const ROUNDS: usize = 9;

/// A round goes over the trees as often as the slower way takes so long, and
/// once at least.
const ROUND_SECONDS: f64 = 0.03;

/// What was measured of one program over one input.
struct Measured {
    /// Expressions begun a second, the medians: proved, and recursive.
    speeds: [f64; 2],
    /// Of each round, the proved speed to the recursive one.
    ratio: Spread,
}

/// Both ways give the same answer and the same output over every tree.
fn assert_same(program: &Program, recursive: &Prepared, input: &Input) {
    for tree in &input.trees {
        let [one, other] = WAYS.map(|way| {
            let mut lent = ways::Lent::new(tree.len());
            let told = sourced(way, &program.file, recursive, tree, &mut lent);
            (told, lent.output)
        });
        assert!(one == other, "{}, {}", program.name, input.name);
    }
}

/// How often a round goes over the trees, where a pass of the slower way takes
/// so long.
fn passes(slower: f64, round: f64) -> usize {
    (round / slower).ceil().clamp(1.0, 1e6) as usize
}

fn measure(program: &Program, prepared: &Prepared, input: &Input, round: f64) -> Measured {
    let mut lent = ways::Lent::for_trees(&input.trees);
    let mut go = |way: Way| pass(way, program, prepared, &input.trees, &mut lent);
    let begun = go(Way::Proved);
    let [proved, recursive] = WAYS.map(|way| {
        seconds(|| {
            go(way);
        })
    });
    let passes = passes(proved.max(recursive), round);
    let rounds = in_turn(ROUNDS, WAYS, |way| {
        for _ in 0..passes {
            go(way);
        }
    });
    let all_begun = (begun * passes as u64) as f64;
    let speeds = [0, 1].map(|which| {
        let seconds = Spread::of(rounds.iter().map(|round| round[which]));
        all_begun / seconds.median
    });
    let ratio = Spread::of(rounds.iter().map(|[proved, recursive]| recursive / proved));
    Measured { speeds, ratio }
}

/// The heading of the table.
fn heading() -> String {
    format!(
        "{:<9}{:<31}{:>8}{:>11}{:>8}",
        "program", "input", "proved", "recursive", "ratio"
    )
}

/// A line of the table.
fn line(program: &Program, input: &Input, measured: &Measured) -> String {
    let [proved, recursive] = measured.speeds.map(|speed| speed / 1e6);
    let Spread {
        least,
        median,
        greatest,
    } = measured.ratio;
    format!(
        "{:<9}{:<31}{proved:>8.1}{recursive:>11.1}{median:>8.2} ({least:.2} to {greatest:.2})",
        program.name, input.name
    )
}

/// Checks and measures one program over its inputs. The recursive evaluation
/// has the program read, and one thread with a large stack, for all its runs.
fn compare(program: &Program) {
    let done = prepared(&program.file, |recursive| {
        for input in inputs(program) {
            assert_same(program, recursive, &input);
            let measured = measure(program, recursive, &input, ROUND_SECONDS);
            println!("{}", line(program, &input, &measured));
        }
    });
    done.expect("the program is right");
}

fn main() {
    println!("million expressions begun a second, and ratio of speeds, proved to");
    println!("recursive: median of {ROUNDS} rounds (least to greatest)\n");
    println!("{}", heading());
    programs().iter().for_each(compare);
}
