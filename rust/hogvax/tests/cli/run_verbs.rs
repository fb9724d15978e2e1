//! The verbs that make a run, `perform`, `run` and `source`: each is tried with
//! document 01's Grow, as code or as a program.

use super::*;

/// The same tree as T, each label 1 more: what Grow gives on T.
pub const GROWN: [u8; 11] = [2, 1, 6, 0, 0, 0, 1, 8, 0, 0, 0];

/// What is said of a stream run of Grow on T, with fuel enough.
pub const ENDED: &str = "ended units 25 read 11 written 11 number 0\n";

/// The same with fuel 24, which lacks the last return.
pub const SPENT: &str = "refused 14 11 units 24 read 11 written 11 number 0\n";

/// A verb that makes a run.
pub struct Verb {
    pub name: &'static str,
    /// The sample that is Grow.
    pub grow: &'static str,
    /// How its first file is called.
    pub first: &'static str,
    pub usage: &'static str,
    /// The fuel that is just enough for Grow on T, and what is then said.
    pub enough: &'static str,
    pub ended: &'static str,
    /// One unit less, and what is then said.
    pub less: &'static str,
    pub spent: &'static str,
    /// The counts of a run that was not begun.
    pub not_begun: &'static str,
}

/// The counts of a stream run that was not begun.
const NO_UNITS: &str = "units 0 read 0 written 0 number 0\n";

pub const PERFORM: Verb = Verb {
    name: "perform",
    grow: "code/grow.code",
    first: "CODE",
    usage: "usage: hogvax perform CODE [FILE] --fuel N \
        [--space M] [--most-space M] [--out FILE] [--partial]",
    enough: "25",
    ended: ENDED,
    less: "24",
    spent: SPENT,
    not_begun: NO_UNITS,
};

pub const RUN: Verb = Verb {
    name: "run",
    grow: "programs/grow.program",
    first: "PROGRAM",
    usage: "usage: hogvax run PROGRAM [FILE] \
        [--fuel N] [--space M] [--most-space M] [--out FILE] [--partial]",
    enough: "25",
    ended: ENDED,
    less: "24",
    spent: SPENT,
    not_begun: NO_UNITS,
};

/// Document 01: "Source run: fuel 14 ends, 13 gives 14."
pub const SOURCE: Verb = Verb {
    name: "source",
    grow: "programs/grow.program",
    first: "PROGRAM",
    usage: "usage: hogvax source PROGRAM [FILE] \
        [--fuel N] [--space M] [--most-space M] [--out FILE]",
    enough: "14",
    ended: "ended begun 14 written 11 number 0 tips 2 depth 1\n",
    less: "13",
    spent: "refused 14 0 begun 13 written 0 number 0 tips 0 depth 0\n",
    not_begun: "begun 0 written 0 number 0 tips 0 depth 0\n",
};

pub const ALL: [Verb; 3] = [PERFORM, RUN, SOURCE];

/// Those that run a program.
pub const OF_PROGRAMS: [Verb; 2] = [RUN, SOURCE];

pub fn small() -> String {
    sample("small.tokens")
}

impl Verb {
    pub fn grow(&self) -> String {
        sample(self.grow)
    }

    /// The option with fuel that is just enough.
    pub fn fuel(&self) -> [&'static str; 2] {
        ["--fuel", self.enough]
    }

    /// Runs Grow over the sample that is T.
    pub fn run_grow(&self, options: &[&str]) -> Output {
        run(&[&[self.name, &self.grow(), &small()], options].concat())
    }

    /// The same with just enough fuel.
    pub fn run_whole(&self, options: &[&str]) -> Output {
        self.run_grow(&[&self.fuel(), options].concat())
    }

    /// Runs Grow over these bytes, from standard input.
    pub fn run_grow_on(&self, input: &[u8], options: &[&str]) -> Output {
        run_on(&[&[self.name, &self.grow()], options].concat(), input)
    }

    /// Runs its first file, from standard input, over the sample that is T.
    pub fn run_first(&self, first: &[u8], options: &[&str]) -> Output {
        run_on(&[&[self.name, "-", &small()], options].concat(), first)
    }

    /// Grow on T is reported as it is.
    pub fn assert_grown(&self, output: &Output) {
        assert_gives(output, 0, &GROWN, self.ended);
    }

    /// What is said of a program or an input that is refused before the run.
    pub fn refused(&self, number: usize, position: usize) -> String {
        format!("refused {number} {position} {}", self.not_begun)
    }

    /// A new and empty folder, for one test of this verb.
    pub fn folder(&self, name: &str) -> PathBuf {
        folder(&format!("{}-{name}", self.name))
    }
}
