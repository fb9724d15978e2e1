//! Verbs that run a file over token bytes: `perform`, of code, and `run` and
//! `source`, of a program.

use std::ffi::{OsStr, OsString};

use hogvax::WorkSpace;

use crate::arguments::{Takes, Words};
use crate::data_output::{self, OUT};
use crate::exit_status::{Outcome, Trouble};
use crate::given_program::{self, Given, Program};
use crate::input::{self, Opening};
use crate::output_space::{Space, MOST_SPACE, SPACE};
use crate::progress::{size, Progress};
use crate::run_answer::Answer;
use crate::token_file::{is_too_short, tell_of_newick};

/// The option that says how many instructions may be performed, or how many
/// expressions begun.
const FUEL: &str = "--fuel";

/// The option that asks for what a run wrote before it was refused.
const PARTIAL: &str = "--partial";

/// The options that each of these verbs has.
const OPTIONS: [(&str, Takes); 4] = [
    (FUEL, Takes::Number),
    (SPACE, Takes::Number),
    (MOST_SPACE, Takes::Number),
    (OUT, Takes::File),
];

/// So many bytes of the input are read at first: it may be endless, and what
/// comes after a tree is not looked at. Where a run needs more, it is made
/// again over twice as many.
const FIRST_INPUT: usize = 1 << 28;

/// A call of the library: a work space, what is to be run, the input, the fuel
/// and the output.
type Call<A> = fn(&mut WorkSpace, &[u8], &[u8], u64, &mut [u8]) -> A;

/// Reads a verb's first file, of which so many bytes decide.
type Load = fn(&OsStr, usize) -> Result<Given, Trouble>;

/// A verb that runs its first file over the bytes of its second, and whose run
/// answers so.
pub struct RunVerb<A> {
    /// How its first file is called.
    pub name: &'static str,
    /// So many bytes of the first file decide; those after them need not be read.
    pub longest: usize,
    /// The fuel, where this one or none is given.
    pub fuel: fn(Option<u64>) -> Result<u64, Trouble>,
    pub call: Call<A>,
    /// The data that goes out after a run of the first file that ended and
    /// wrote these bytes.
    pub data: fn(&[u8], &A, Vec<u8>) -> Vec<u8>,
    /// Whether a run may write before it is refused, so that there is
    /// `--partial`.
    pub partial: bool,
    /// Reports on standard error which sum is out of range, if that is why the
    /// run is refused.
    pub tell_of_sum: fn(&A, &Program, &Opening) -> Result<(), Trouble>,
}

impl<A: Answer> RunVerb<A> {
    /// Takes the words that follow the verb: two files, of which the second
    /// may be left out, and the options.
    pub fn run(&self, words: &[OsString]) -> Option<Outcome> {
        self.run_given(words, |file, longest| {
            let bytes = input::read_at_most(file, longest)?;
            Ok(Given::Program(Program::from_file(file, bytes)))
        })
    }

    /// The same, where the first file is a program, which may be a text.
    pub fn run_program(&self, words: &[OsString]) -> Option<Outcome> {
        self.run_given(words, given_program::load)
    }

    fn run_given(&self, words: &[OsString], load: Load) -> Option<Outcome> {
        let mut options = OPTIONS.to_vec();
        if self.partial {
            options.push((PARTIAL, Takes::Nothing));
        }
        let words = Words::sort(words, &options)?;
        let files = words.two_files()?;
        Some(self.run_files(files, load, &words))
    }

    fn run_files(&self, files: (&OsStr, &OsStr), load: Load, words: &Words) -> Outcome {
        let (first, file) = files;
        if first == "-" && file == "-" {
            let name = self.name;
            return Err(Trouble(format!(
                "{name} and FILE can't both be standard input; FILE is, if it is left out"
            )));
        }
        let fuel = (self.fuel)(words.number(FUEL)?)?;
        let space = Space::asked(words)?;
        let first = load(first, self.longest)?;
        let mut input = Opening::read(file, FIRST_INPUT)?;
        let first = match first {
            Given::Program(first) => first,
            Given::Unread(line) => return data_output::refuse(&line),
        };
        let (answer, data) = match &first.file {
            Ok(bytes) => input.answer(
                |(answer, _): &(A, Vec<u8>)| answer.refused().as_ref().is_some_and(is_too_short),
                |input| self.make_run(bytes, input, fuel, &space),
            )?,
            Err(refused) => (A::not_begun(*refused), Vec::new()),
        };
        let ended = hand_out(&answer, &data, words)?;
        (self.tell_of_sum)(&answer, &first, &input)?;
        first.tell_of_text(answer.refused())?;
        tell_of_newick(&input, answer.refused())?;
        Ok(ended)
    }

    /// Runs the first file's bytes: the answer, and the data that goes out, or
    /// what was written before a refusal.
    fn make_run(
        &self,
        first: &[u8],
        input: &[u8],
        fuel: u64,
        space: &Space,
    ) -> Result<(A, Vec<u8>), Trouble> {
        let mut work = WorkSpace::new();
        let running = Progress::of(&format!("running over {}", size(input.len())));
        let (answer, written) = space.run(input.len(), |output| {
            (self.call)(&mut work, first, input, fuel, output)
        })?;
        drop(running);
        let data = match answer.refused() {
            None => (self.data)(first, &answer, written),
            Some(_) => written,
        };
        Ok((answer, data))
    }
}

fn hand_out(answer: &impl Answer, data: &[u8], words: &Words) -> Outcome {
    let (out, line) = (data_output::destination(words), answer.to_string());
    match answer.refused() {
        None => data_output::hand_out(data, out, &line),
        Some(_) if words.has(PARTIAL) => data_output::refuse_after(data, out, &line),
        Some(_) => data_output::refuse(&line),
    }
}

/// What a program gives after a run that wrote these bytes: the tree's tokens,
/// or the number on a line of its own.
pub fn result(program: &[u8], answer: &impl Answer, written: Vec<u8>) -> Vec<u8> {
    if hogvax::gives_a_number(program) {
        format!("{}\n", answer.number()).into_bytes()
    } else {
        written
    }
}
