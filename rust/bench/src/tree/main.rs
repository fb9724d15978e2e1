//! The proved tree reader's speed beside two readers in plain, safe Rust.

#![forbid(unsafe_code)]

mod plain;
mod shapes;
#[cfg(test)]
mod tests;

use std::hint::black_box;

use bench::{in_turn, Spread};
use hogvax::{Measures, Refused};

use shapes::{shapes, Shape};

const ROUNDS: usize = 15;

/// The tree's measures, or its refusal.
type Answer = Result<Measures, Refused>;

type Reader = fn(&[u8]) -> Answer;

const READERS: [Reader; 3] = [hogvax::tree, plain::by_recursion, plain::by_loop];

/// All readers give the same answer: the measures of this tree.
fn agreed(input: &[u8]) -> Measures {
    let [proved, by_recursion, by_loop] = READERS.map(|reader| reader(input));
    assert_eq!(proved, by_recursion);
    assert_eq!(proved, by_loop);
    proved.expect("the input is trees")
}

/// Reads all trees of an input in turn.
fn read(reader: impl Fn(&[u8]) -> Measures, shape: &Shape) {
    let mut at = 0;
    for _ in 0..shape.trees {
        let measures = reader(black_box(&shape.bytes[at..]));
        at += measures.bytes;
        black_box(measures);
    }
    assert_eq!(at, shape.bytes.len());
}

/// Prints one line.
fn print_speeds(shape: &Shape) {
    let times = in_turn(ROUNDS, READERS, |reader| {
        read(|input| reader(input).expect("the input is trees"), shape)
    });
    let megabytes = shape.bytes.len() as f64 / 1e6;
    print!("{:<32}{megabytes:>6.1}", shape.name);
    for which in 0..READERS.len() {
        let seconds = Spread::of(times.iter().map(|round| round[which]));
        print!("{:>11.0}", megabytes / seconds.median);
    }
    for which in 1..READERS.len() {
        let ratio = Spread::of(times.iter().map(|round| round[which] / round[0]));
        print!("{:>14.2}", ratio.median);
    }
    println!();
}

fn main() {
    let shapes = shapes();
    for shape in &shapes {
        read(agreed, shape);
    }
    println!("MB/s, and ratio of the proved reader's speed to that of each plain one:");
    println!("median of {ROUNDS} rounds\n");
    println!(
        "{:<32}{:>6}{:>11}{:>11}{:>11}{:>14}{:>14}",
        "input", "MB", "proved", "recursion", "loop", "to recursion", "to loop"
    );
    for shape in &shapes {
        print_speeds(shape);
    }
}
