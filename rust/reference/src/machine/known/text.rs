//! Codes in the words of document 01: "read tag L, read number, p, end, jump
//! M".

use crate::machine::{assemble, mnemonic, opcode};
use crate::machine::{Cause, Instruction, Mark, Ran, Stop, TestCase, FILLER};
use crate::tree::Refusal;

use super::programs::{instruction, listed, parsed};
use super::programs::{FILL, FOREVER, FOREVER_TREE, GROW, SUM};
use super::Known;

/// The opcodes by name.
const NAMES: [&str; 14] = [
    "push",
    "get",
    "add",
    "ifnot",
    "jump",
    "slide",
    "drop",
    "leaf tag",
    "node tag",
    "write number",
    "read tag",
    "read number",
    "call",
    "return",
];

/// A table with a run in each line: what it shows; its code; what is given,
/// which is `input BYTES`, `room BYTES` for the length of the output, and
/// `fuel UNITS`; and the answer, which is the stop, `units`, `read` and
/// `wrote BYTES`. Left out, fuel is the greatest, and the others are empty or
/// 0. Bytes are hexadecimal; `01*9` is that byte nine times.
pub fn table(text: &'static str) -> Vec<Known> {
    let lines = text.lines().filter(|line| !line.is_empty());
    lines.map(known).collect()
}

fn known(line: &'static str) -> Known {
    let columns: Vec<&str> = line.split('|').map(str::trim).collect();
    let [name, code_text, given, answer] = columns[..] else {
        panic!("not four columns: {line}");
    };
    let case = TestCase {
        code: code(code_text),
        input: bytes(field(given, "input").unwrap_or("")),
        fuel: field(given, "fuel").map_or(u64::MAX, parsed),
        output: field(given, "room").map_or(0, parsed),
    };
    let (stop, number) = stop(answer.split(", ").next().unwrap_or(""));
    let read = field(answer, "read").map_or(0, parsed);
    let mut output = bytes(field(answer, "wrote").unwrap_or(""));
    let answer = Ran {
        refusal: stop.mark.number().map(|number| Refusal {
            number,
            position: read,
        }),
        units: field(answer, "units").map(parsed).expect("units"),
        read,
        written: output.len(),
        number,
    };
    output.resize(case.output, FILLER);
    Known {
        name,
        case,
        answer,
        bytes: output,
        stop,
    }
}

/// What follows this word in its item of a list.
pub(crate) fn field<'a>(text: &'a str, word: &str) -> Option<&'a str> {
    let mut items = text.split(", ").filter_map(|item| item.split_once(' '));
    items.find(|item| item.0 == word).map(|item| item.1)
}

/// `ended`, `ended with NUMBER`, or a mark and, after `over`, the one it
/// hides; and the number answered.
fn stop(text: &str) -> (Stop, i32) {
    let at_return = |cause| Stop::plain(Mark::at(opcode::RETURN, cause));
    if text == "ended" {
        return (at_return(Cause::EndedWithNone), 0);
    }
    if let Some(number) = text.strip_prefix("ended with ") {
        return (at_return(Cause::EndedWithOne), parsed(number));
    }
    let (told, hidden) = match text.split_once(" over ") {
        Some((told, hidden)) => (told, Some(mark(hidden))),
        None => (text, None),
    };
    let mark = mark(told);
    (Stop { mark, hidden }, 0)
}

/// A cause and, after `at`, the opcode.
fn mark(text: &str) -> Mark {
    let (cause, name) = match text.split_once(" at ") {
        Some((cause, name)) => (cause, Some(name)),
        None => (text, None),
    };
    let mut causes = Cause::ALL.into_iter();
    let cause = causes.find(|one| format!("{one:?}") == cause);
    let cause = cause.unwrap_or_else(|| panic!("no cause: {text}"));
    let opcode = name.map(|name| {
        let found = NAMES.iter().position(|one| *one == name);
        found.unwrap_or_else(|| panic!("no opcode: {text}")) as u8
    });
    Mark { opcode, cause }
}

pub(crate) fn bytes(text: &str) -> Vec<u8> {
    let runs = text.split_whitespace().map(|word| {
        let (byte, count) = word.split_once('*').unwrap_or((word, "1"));
        let byte = u8::from_str_radix(byte, 16).unwrap_or_else(|_| panic!("no byte: {word}"));
        vec![byte; parsed(count)]
    });
    runs.collect::<Vec<_>>().concat()
}

/// Instructions, worked programs by name, and single bytes.
pub(crate) fn code(text: &str) -> Vec<u8> {
    let items = text.split(", ").filter(|item| !item.is_empty());
    items.map(code_item).collect::<Vec<_>>().concat()
}

fn code_item(text: &str) -> Vec<u8> {
    if let Some((count, item)) = text.split_once(" times ") {
        return code_item(item).repeat(parsed(count));
    }
    if let Some(text) = text.strip_prefix("bytes ") {
        return bytes(text);
    }
    let program = match text {
        "Grow" => GROW,
        "Sum" => SUM,
        "Fill" => FILL,
        "endless" => FOREVER,
        "endless tree" => FOREVER_TREE,
        _ => return by_name(text).to_bytes().to_vec(),
    };
    assemble(&listed(program))
}

/// An instruction by name, or `raw` and its four fields.
fn by_name(text: &str) -> Instruction {
    let words: Vec<&str> = text.split(' ').collect();
    match words[..] {
        ["push", number] => mnemonic::push(parsed(number)),
        ["get", word] => mnemonic::get(parsed(word)),
        ["add"] => mnemonic::add(),
        ["ifnot", address] => mnemonic::ifnot(parsed(address)),
        ["jump", address] => mnemonic::jump(parsed(address)),
        ["slide"] => mnemonic::slide(),
        ["drop"] => mnemonic::drop_word(),
        ["leaf", "tag"] => mnemonic::leaf_tag(),
        ["node", "tag"] => mnemonic::node_tag(),
        ["write", "number"] => mnemonic::write_number(),
        ["read", "tag", address] => mnemonic::read_tag(parsed(address)),
        ["read", "number"] => mnemonic::read_number(),
        ["call", entry, "with", arguments] => mnemonic::call(parsed(entry), parsed(arguments)),
        ["return", kept] => mnemonic::ret(parsed(kept)),
        ["raw", ..] => instruction(&text["raw ".len()..]),
        _ => panic!("no instruction: {text}"),
    }
}
