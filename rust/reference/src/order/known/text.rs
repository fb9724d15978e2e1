//! Programs in the words of document 01: "Case 0, Leaf, Var 0, Node, Call 0
//! on 2, Call 0 on 1".

use crate::program::{kind, part_count, Expr, Function, Program, Record};
use crate::tree::refuse;

use super::Known;

/// A table with a program in each line: its answer, `passed` or `refused
/// NUMBER RECORD`; what it shows; and its functions.
pub fn table(text: &'static str) -> Vec<Known> {
    text.lines()
        .filter(|line| !line.is_empty())
        .map(known)
        .collect()
}

fn known(line: &'static str) -> Known {
    let columns: Vec<&str> = line.split('|').map(str::trim).collect();
    let [answer, name, functions] = columns[..] else {
        panic!("not three columns: {line}");
    };
    let words: Vec<&str> = answer.split(' ').collect();
    let answer = match words[..] {
        ["passed"] => Ok(()),
        ["refused", number, record] => refuse(byte(number), usize::from(byte(record))),
        _ => panic!("no answer: {answer}"),
    };
    Known {
        name,
        program: program(functions),
        answer,
    }
}

/// Functions with `/` between them: the result, the number parameters if there
/// are any, `:` and the records.
pub(crate) fn program(text: &str) -> Program {
    let split = |function: &'_ str| {
        let (head, body) = function.split_once(':').expect("a result and a body");
        let (head, body) = (head.trim().to_owned(), body.trim().to_owned());
        let parameters = head.split_once(' ').map_or(0, |(_, count)| byte(count));
        (head.starts_with("tree"), parameters, body)
    };
    let functions: Vec<(bool, u8, String)> = text.split('/').map(split).collect();
    let parameters: Vec<u8> = functions.iter().map(|function| function.1).collect();
    let functions = functions.iter().map(|(tree_valued, count, body)| Function {
        tree_valued: *tree_valued,
        parameters: *count,
        body: expression(body, &parameters),
    });
    Program::new(functions.collect())
}

/// The expression of these records, the functions having so many number
/// parameters.
fn expression(text: &str, parameters: &[u8]) -> Expr {
    let with_parts = |words| {
        let record = record(words);
        (record, part_count(record, parameters).expect("a function"))
    };
    let records: Vec<(Record, usize)> = text.split(", ").map(with_parts).collect();
    Expr::from_prefix(&records).unwrap_or_else(|| panic!("no expression: {text}"))
}

fn record(text: &str) -> Record {
    let words: Vec<&str> = text.split(' ').collect();
    let (kind, a, b, i) = match words[..] {
        ["Const", i] => (kind::CONST, 0, 0, number(i)),
        ["Var", a] => (kind::VAR, byte(a), 0, 0),
        ["Add"] => (kind::ADD, 0, 0, 0),
        ["IfZero"] => (kind::IF_ZERO, 0, 0, 0),
        ["Let"] => (kind::LET, 0, 0, 0),
        ["Leaf"] => (kind::LEAF, 0, 0, 0),
        ["Node"] => (kind::NODE, 0, 0, 0),
        ["Case", a] => (kind::CASE, byte(a), 0, 0),
        ["Call", b, "on", a] => (kind::CALL, byte(a), byte(b), 0),
        _ => panic!("no record: {text}"),
    };
    Record {
        kind,
        a,
        b: b.into(),
        i: i as u32,
    }
}

fn number(word: &str) -> i32 {
    word.parse().unwrap_or_else(|_| panic!("no number: {word}"))
}

fn byte(word: &str) -> u8 {
    word.parse().unwrap_or_else(|_| panic!("no byte: {word}"))
}
