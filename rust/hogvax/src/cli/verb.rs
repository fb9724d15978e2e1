//! The verbs: a file each in `verb/`, and one table of them.

mod assemble;
mod check;
mod draw;
mod help;
mod listing;
mod newick;
mod pack;
mod perform;
mod run;
mod show;
mod source;
mod tokens;
mod tree;
mod unpack;
mod why;

use std::ffi::{OsStr, OsString};

use crate::exit_status::{Outcome, Trouble};

/// A verb of the command line. A new one is a file in `verb/` and a line of
/// `VERBS`; without the line, the compiler warns of an unused `VERB`.
pub struct Verb {
    pub name: &'static str,
    /// What it needs, and files that may be left out.
    pub operands: &'static str,
    /// What else it takes.
    pub options: &'static str,
    /// What it does, in a few words, for the list of verbs.
    pub summary: &'static str,
    /// What it does, with an example.
    pub description: &'static str,
    /// Takes the words that follow the verb; `None` if they are not its
    /// operands.
    pub run: fn(&[OsString]) -> Option<Outcome>,
}

/// All verbs, in the order in which they are listed.
pub const VERBS: &[Verb] = &[
    tree::VERB,
    assemble::VERB,
    show::VERB,
    pack::VERB,
    unpack::VERB,
    check::VERB,
    listing::VERB,
    perform::VERB,
    run::VERB,
    source::VERB,
    newick::VERB,
    tokens::VERB,
    draw::VERB,
    why::VERB,
    help::VERB,
];

impl Verb {
    /// How it is called: its name and its operands.
    pub fn call(&self) -> String {
        format!("{} {}", self.name, self.operands)
    }

    /// How the program is called with it, options included.
    pub fn usage(&self) -> String {
        let usage = format!("hogvax {} {}", self.call(), self.options);
        usage.trim_end().to_owned()
    }
}

pub fn find(name: &OsStr) -> Result<&'static Verb, Trouble> {
    VERBS.iter().find(|verb| name == verb.name).ok_or_else(|| {
        let name = name.to_string_lossy();
        Trouble(format!("no verb '{name}'; 'hogvax help' lists them"))
    })
}

fn asks_for_help(word: &OsString) -> bool {
    word == "--help" || word == "-h"
}

/// Does what the command line's words say, the program's name aside.
pub fn run(words: &[OsString]) -> Outcome {
    let Some((name, operands)) = words.split_first() else {
        return help::list();
    };
    if asks_for_help(name) {
        return help::list();
    }
    let verb = find(name)?;
    if operands.iter().any(asks_for_help) {
        return help::describe(verb);
    }
    match (verb.run)(operands) {
        Some(outcome) => outcome,
        None => Err(Trouble(format!("usage: {}", verb.usage()))),
    }
}
