//! Peak memory. The benchmark starts itself once for each way and input: the
//! peak of a process tells of one run only if that is all it does.

use std::env;
use std::fs;
use std::io;
use std::process::{Command, Output};

use bench::programs::Program;

use crate::inputs;
use crate::ways::{with_ready, Way, WAYS};

/// The word by which the benchmark calls itself, followed by the word of a
/// way, the name of a program and the MB of an input.
pub const WORD: &str = "--memory";

/// The memory of a process with one run, in bytes.
#[derive(Clone, Copy, Debug, PartialEq, Eq)]
pub struct Used {
    /// Input and output.
    pub input: u64,
    pub output: u64,
    /// Resident before the run, with the input made and the output not yet
    /// touched.
    pub before: u64,
    /// The most that was ever resident.
    pub peak: u64,
}

impl Used {
    /// The peak, without input and output.
    pub fn beyond(&self) -> u64 {
        self.peak.saturating_sub(self.input + self.output)
    }

    /// What the process had before the run, without the input.
    pub fn before_beyond(&self) -> u64 {
        self.before.saturating_sub(self.input)
    }

    /// As one line.
    pub fn line(&self) -> String {
        format!(
            "{} {} {} {}",
            self.input, self.output, self.before, self.peak
        )
    }

    /// From its line.
    pub fn parse(line: &str) -> Option<Used> {
        let numbers: Result<Vec<u64>, _> = line.split_whitespace().map(str::parse).collect();
        let &[input, output, before, peak] = &numbers.ok()?[..] else {
            return None;
        };
        Some(Used {
            input,
            output,
            before,
            peak,
        })
    }
}

/// Makes the input of so many tips and goes a way over it once, in this
/// process. `None` where the system does not tell what a process uses.
pub fn once(way: Way, program: &Program, tips: usize) -> Option<Used> {
    let input = inputs::input(tips);
    with_ready(program, [way], |[mut ready]| {
        let mut output = vec![0; inputs::result_length(program, tips)];
        let before = of_this_process("VmRSS")?;
        ready.go(&input, &mut output);
        Some(Used {
            input: input.len() as u64,
            output: output.len() as u64,
            before,
            peak: of_this_process("VmHWM")?,
        })
    })
}

/// The same in a process of its own. `None` where it reported nothing.
pub fn measure(way: Way, program: &Program, megabytes: usize) -> Option<Used> {
    let ended = child(way, program, megabytes).expect("the benchmark can start itself");
    let told = String::from_utf8_lossy(&ended.stdout);
    let message = String::from_utf8_lossy(&ended.stderr);
    assert!(ended.status.success(), "{}: {message}", ended.status);
    Used::parse(&told)
}

fn child(way: Way, program: &Program, megabytes: usize) -> io::Result<Output> {
    Command::new(env::current_exe()?)
        .args([WORD, way.word(), program.name, &megabytes.to_string()])
        .output()
}

fn of_this_process(name: &str) -> Option<u64> {
    field(&fs::read_to_string("/proc/self/status").ok()?, name)
}

/// The bytes that a line `NAME: NUMBER kB` tells, 1,024 for a kB.
pub fn field(text: &str, name: &str) -> Option<u64> {
    let told = |line: &str| {
        let (first, rest) = line.split_once(':')?;
        let number = rest.trim().strip_suffix("kB")?.trim();
        let number: Option<u64> = number.parse().ok();
        number.filter(|_| first == name)?.checked_mul(1_024)
    };
    text.lines().find_map(told)
}

/// Taken for the memory to be had where the system does not tell: few
/// machines have less.
const UNTOLD: u64 = 1 << 30;

/// Which ways may be gone over an input of so many bytes: those that take at
/// most two thirds of the memory to be had, so that the machine goes on.
pub fn taken(input: usize) -> [bool; 3] {
    let told = fs::read_to_string("/proc/meminfo").ok();
    let available = told.and_then(|text| field(&text, "MemAvailable"));
    WAYS.map(|way| fits(way, input as u64, available.unwrap_or(UNTOLD)))
}

/// Whether a way over an input of so many bytes takes at most two thirds of
/// this memory. Besides the input there are its output and another one to
/// compare with. A tree in memory takes 32 bytes for each of its 2n - 1 leaves
/// and nodes, 11 for each byte of its tokens; there are the input's and the
/// result's, whose tokens are collected in a vector before they are copied.
pub fn fits(way: Way, input: u64, available: u64) -> bool {
    let for_each_byte = match way {
        Way::Run | Way::Plain => 3,
        Way::Trees => 3 + 2 * 11 + 2,
    };
    input.saturating_mul(for_each_byte) <= available / 3 * 2
}
