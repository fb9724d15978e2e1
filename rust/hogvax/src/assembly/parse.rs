//! A line of a program's text as a record.

use super::lines::Word;
use super::records::{Kind, Operands, Record, KINDS};
use super::rest::Rest;
use crate::Fault;

/// The word that begins a function line.
const FUNCTION: &str = "function";

/// Whether this word begins a function line, or is meant to.
pub fn begins_a_function(name: &Word) -> bool {
    name.text.eq_ignore_ascii_case(FUNCTION)
}

/// The record of the function whose turn it is, as yet without nodes. The line
/// has these words after `name`.
pub fn function(name: &Word, words: &[Word], turn: usize) -> Result<Record, Fault> {
    if name.text != FUNCTION {
        return Err(unknown(name));
    }
    let form = format!("a function line is: function {turn} takes tree 0 gives tree");
    let mut rest = Rest::new(name, words, form);
    rest.turn("functions count from 0: this is function", turn)?;
    rest.word(&["takes"])?;
    rest.word(&["tree"])?;
    rest.turn("a function takes one tree, which is tree", 0)?;
    let mut parameters = 0;
    while rest.word(&[",", "gives"])? == 0 {
        rest.word(&["number"])?;
        rest.turn("number parameters count from 0: this is number", parameters)?;
        parameters += 1;
    }
    let result = rest.word(&["number", "tree"])?;
    rest.close()?;
    let most = u8::MAX;
    let room = || {
        name.fault(format!(
            "a record has room for {most} number parameters, not {parameters}"
        ))
    };
    Ok(Record {
        kind: u8::from(result == 1),
        a: u8::try_from(parameters).map_err(|_| room())?,
        b: 0,
        i: 0,
    })
}

/// The node record of a line that has these words after `name`.
pub fn node(name: &Word, words: &[Word]) -> Result<Record, Fault> {
    let mut kinds = (0..).zip(&KINDS);
    let Some((index, kind)) = kinds.find(|(_, kind)| kind.name == name.text) else {
        return Err(unknown(name));
    };
    let mut rest = Rest::new(name, words, form(kind));
    let (mut a, mut b, mut i) = (0, 0, 0);
    match kind.operands {
        Operands::Nothing => {}
        Operands::Number => i = rest.number("a number", i32::MIN..=i32::MAX)?,
        Operands::NumberName => a = rest.number(NUMBER_NAME, 0..=u8::MAX)?,
        Operands::TreeName => a = rest.number(TREE_NAME, 0..=u8::MAX)?,
        Operands::FunctionOnTree => {
            b = rest.number("a function", 0..=u16::MAX)?;
            rest.word(&["on"])?;
            a = rest.number(TREE_NAME, 0..=u8::MAX)?;
        }
    }
    rest.close()?;
    let kind = index;
    Ok(Record { kind, a, b, i })
}

const NUMBER_NAME: &str = "the name of a number";
const TREE_NAME: &str = "the name of a tree";

/// What a line of this kind has, with an example.
fn form(kind: &Kind) -> String {
    let name = kind.name;
    match kind.operands {
        Operands::Nothing => {
            format!("{name} stands alone, and its parts follow on lines of their own")
        }
        Operands::Number => format!("{name} takes a number: {name} -1"),
        Operands::NumberName => format!("{name} takes {NUMBER_NAME}: {name} 0"),
        Operands::TreeName => format!("{name} takes {TREE_NAME}: {name} 0"),
        Operands::FunctionOnTree => {
            format!("{name} takes a function and a tree: {name} 0 on 1")
        }
    }
}

/// That no line begins with this word. A word that differs by its capitals
/// alone is reported.
fn unknown(name: &Word) -> Fault {
    let known = KINDS.iter().map(|kind| kind.name).chain([FUNCTION]);
    let mut near = known.filter(|known| known.eq_ignore_ascii_case(name.text));
    let word = name.quoted();
    name.fault(match near.next() {
        None => format!("no kind of record is called {word}"),
        Some(near) => format!("no kind of record is called {word}; '{near}' is meant?"),
    })
}
