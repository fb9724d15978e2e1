//! `help [VERB]`: the verbs, or one verb with an example.

use std::ffi::OsString;

use crate::exit_status::{Ended, Outcome};
use crate::output;
use crate::verb::{self, Verb, VERBS};

pub const VERB: Verb = Verb {
    name: "help",
    operands: "[VERB]",
    options: "",
    summary: "the verbs, or one verb with an example",
    description: "\
Lists the verbs, or describes one.

Example:
  $ ./hogvax help tree
",
    run,
};

/// The length of the longest line.
const COLUMNS: usize = 80;

/// What holds of many verbs, below their list.
const NOTES: &str = "
FILE may be '-' or left out: then standard input is read. Verbs that write data,
assemble, pack, unpack, perform, run, source and tokens, write it into the file
of --out or, if that is '-' or left out, to standard output; their answer goes
to standard error. show, check, listing, run and source take a program file or a
program's text, which 'hogvax help assemble' describes.
'hogvax help VERB' shows a verb's options.
Exit status: 0 done; 1 refused; 2 wrong usage, or a file that can't be read or
written.
";

fn run(operands: &[OsString]) -> Option<Outcome> {
    match operands {
        [] => Some(list()),
        [name] => Some(verb::find(name).and_then(describe)),
        _ => None,
    }
}

/// Prints the list of verbs.
pub fn list() -> Outcome {
    let mut text = String::from("usage: hogvax VERB ...\n\n");
    let width = VERBS.iter().map(|verb| verb.call().len()).max();
    let width = width.unwrap_or(0) + 2;
    for verb in VERBS {
        text += &format!("  {:<width$}{}\n", verb.call(), verb.summary);
    }
    text += NOTES;
    output::print(&text)?;
    Ok(Ended::Done)
}

/// Prints all that is said of one verb.
pub fn describe(verb: &Verb) -> Outcome {
    let usage = heading(verb);
    output::print(&format!("{usage}\n\n{}", verb.description))?;
    Ok(Ended::Done)
}

/// How a verb is called, its options on a line of their own where one line is
/// too long.
fn heading(verb: &Verb) -> String {
    let usage = verb.usage();
    if usage.len() <= COLUMNS {
        return usage;
    }
    let indent = "hogvax ".len() + verb.name.len() + 1;
    format!("hogvax {}\n{:indent$}{}", verb.call(), "", verb.options)
}

#[cfg(test)]
mod tests {
    use super::*;
    use crate::data_output::OUT;

    /// The names of verbs, as a sentence lists them.
    fn listed(is_meant: impl Fn(&Verb) -> bool) -> String {
        let verbs = VERBS.iter().filter(|verb| is_meant(verb));
        let names: Vec<&str> = verbs.map(|verb| verb.name).collect();
        let (last, others) = names.split_last().unwrap();
        format!("{} and {last}", others.join(", "))
    }

    /// The text in one line.
    fn flat(text: &str) -> String {
        text.split_whitespace().collect::<Vec<_>>().join(" ")
    }

    /// The list names the verbs of the table that have `--out`, and those that
    /// refer to the form of a text.
    #[test]
    fn the_sentences_below_the_list_name_the_verbs_of_the_table() {
        let text = flat(NOTES);
        let writing = listed(|verb| verb.options.contains(OUT));
        assert!(text.contains(&format!("write data, {writing}, write")));
        let of_text = "'hogvax help assemble'";
        let taking = listed(|verb| flat(verb.description).contains(of_text));
        assert!(text.contains(&format!("{taking} take a program file or a")));
    }
}
