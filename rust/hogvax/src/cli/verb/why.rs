//! `why NUMBER`: what a refusal means.

use std::ffi::OsString;

use crate::arguments;
use crate::exit_status::{Ended, Outcome, Trouble};
use crate::output;
use crate::refusal_table::{Refusal, REFUSALS};
use crate::verb::Verb;

pub const VERB: Verb = Verb {
    name: "why",
    operands: "NUMBER",
    options: "",
    summary: "what a refusal means",
    description: "\
Says what a refusal's number means and what its position counts, with an
example.

Example:
  $ ./hogvax why 16
",
    run,
};

fn run(operands: &[OsString]) -> Option<Outcome> {
    match operands {
        [word] => {
            let word = word.to_str()?;
            arguments::is_decimal(word).then(|| why(word))
        }
        _ => None,
    }
}

/// The refusal with that number, which may be too large for any integer.
fn find(word: &str) -> Option<&'static Refusal> {
    let number: u32 = word.parse().ok()?;
    REFUSALS.iter().find(|refusal| refusal.number == number)
}

fn why(word: &str) -> Outcome {
    let Some(refusal) = find(word) else {
        let most = REFUSALS.len();
        return Err(Trouble(format!(
            "no refusal has the number {word}; they are 1 to {most}"
        )));
    };
    let Refusal {
        number,
        name,
        meaning,
        position,
        example,
    } = refusal;
    output::print(&format!(
        "{number}: {name}\n\n{meaning}\nPosition: {position}\nExample: {example}\n"
    ))?;
    Ok(Ended::Done)
}
