//! The tables, as Markdown.

use crate::memory::Used;
use crate::times::Timed;

/// Above the rows of memory: MB of the input, of input and output, of the
/// process of `run` before the run and without the input; then the peaks
/// without input and output, the last one also for each byte of the input.
pub const MEMORY_HEADING: &str = "\
| program | MB | buffers | before | `run` | plain Rust | on trees | on trees, a byte |
|---|---|---|---|---|---|---|---|";

/// Above the rows of times: MB of the input, MB a second, and the speed of
/// `run` to the others'.
pub const TIMES_HEADING: &str = "\
| program | MB | `run` | plain Rust | on trees | to plain Rust | to trees |
|---|---|---|---|---|---|---|";

/// A row of memory, in the order of `WAYS`.
pub fn memory_row(program: &str, megabytes: usize, used: &[Option<Used>; 3]) -> String {
    let of_run = |bytes: fn(&Used) -> u64, decimals| {
        cell(used[0].as_ref().map(|used| in_mb(bytes(used))), decimals)
    };
    let beyond = |way: usize, decimals| {
        let used = used[way].as_ref();
        cell(used.map(|used| in_mb(used.beyond())), decimals)
    };
    let for_each_byte = used[2].map(|used| used.beyond() as f64 / used.input as f64);
    row(&[
        program.to_owned(),
        grouped(megabytes as u64),
        of_run(|used| used.input + used.output, 0),
        of_run(Used::before_beyond, 2),
        beyond(0, 2),
        beyond(1, 2),
        beyond(2, 0),
        cell(for_each_byte, 1),
    ])
}

/// A row of times, in the order of `WAYS`.
pub fn times_row(program: &str, megabytes: usize, timed: &Timed) -> String {
    let speed = |way: usize| cell(timed.seconds[way].map(|took| megabytes as f64 / took), 0);
    row(&[
        program.to_owned(),
        grouped(megabytes as u64),
        speed(0),
        speed(1),
        speed(2),
        cell(timed.ratios[1], 2),
        cell(timed.ratios[2], 1),
    ])
}

fn in_mb(bytes: u64) -> f64 {
    bytes as f64 / 1e6
}

fn row(cells: &[String]) -> String {
    format!("| {} |", cells.join(" | "))
}

/// A number with so many decimals, or `-` where there is none.
fn cell(number: Option<f64>, decimals: usize) -> String {
    match number {
        None => "-".to_owned(),
        Some(number) if decimals == 0 => grouped(number.round() as u64),
        Some(number) => format!("{number:.decimals$}"),
    }
}

/// With a comma before each three digits.
pub fn grouped(number: u64) -> String {
    let digits = number.to_string();
    let mut text = String::new();
    for (place, digit) in digits.chars().enumerate() {
        if place > 0 && (digits.len() - place).is_multiple_of(3) {
            text.push(',');
        }
        text.push(digit);
    }
    text
}
