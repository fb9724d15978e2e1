//! Pass one: at each record, in prefix order, whether its name is bound, then
//! its type, then the words.

use super::super::outline::{FunctionOutline, Node, Outline};
use super::super::records::{Type, CALL, CASE, CONST, VAR};
use super::super::wording::{names, part_name, quoted, verb};
use super::bound;
use super::here::{Here, Step};
use super::kinds;
use super::{Detail, Found};

const MOST_WORDS: usize = 16;

/// What holds on entering a record.
#[derive(Clone, Copy)]
struct Entered {
    expected: Type,
    /// How many words stand.
    words: usize,
}

pub fn check(program: &Outline) -> Result<(), Found> {
    for (k, function) in program.functions.iter().enumerate() {
        let mut all = Vec::new();
        for node in &function.nodes {
            let here = Here {
                program,
                k,
                function,
                node,
            };
            let entered = on_entering(function, node, &all);
            name(here)?;
            type_of(here, entered.expected)?;
            words(here, entered.words)?;
            all.push(entered);
        }
    }
    Ok(())
}

/// `before` has the records of the function that stand before this one.
fn on_entering(function: &FunctionOutline, node: &Node, before: &[Entered]) -> Entered {
    let of_whole = node.whole.and_then(|(number, part)| {
        let index = number.checked_sub(function.first)?;
        let kind = function.nodes.get(index)?.record.kind;
        let entered = before.get(index)?;
        Some(Entered {
            expected: kinds::expected(kind, part).unwrap_or(entered.expected),
            words: entered.words + kinds::more_words(kind, part),
        })
    });
    of_whole.unwrap_or(Entered {
        expected: function.record.result(),
        words: usize::from(function.record.a),
    })
}

/// Refusal 9.
fn name(here: Here) -> Result<(), Found> {
    let node = here.node;
    let name = usize::from(node.record.a);
    let (what, count) = match node.record.kind {
        VAR => (Type::Number, node.numbers),
        CASE | CALL => (Type::Tree, node.trees),
        _ => return Ok(()),
    };
    if name < count {
        return Ok(());
    }
    let message = format!("{what} {name} is not bound here");
    let bound = names(&what.to_string(), 0, count);
    let bound = Detail::new(format!("{bound} {} bound here", verb(count)));
    let found = Found::new(9, node.number, message).with(bound);
    let found = found.with_all(bound::binders(here, what));
    Err(match bound::in_another_part(here, what, name) {
        Some(detail) => found.with(detail),
        None => found,
    })
}

/// Refusal 8.
fn type_of(here: Here, expected: Type) -> Result<(), Found> {
    let node = here.node;
    let called = called(here);
    let of_function = called.map(|function| function.record.result());
    let gives = kinds::gives(node.record.kind).or(of_function);
    let Some(gives) = gives.filter(|&gives| gives != expected) else {
        return Ok(());
    };
    let message = format!("a {expected} is expected here, and this gives a {gives}");
    let mut found = Found::new(8, node.number, message).with_all(reasons(here, expected));
    if called.is_some() {
        let b = usize::from(node.record.b);
        let text = format!("function {b} gives a {gives}");
        found = found.with(Detail::of(1 + b, text));
    }
    Err(found)
}

/// The function that a Call calls.
fn called<'a>(here: Here<'a>) -> Option<&'a FunctionOutline> {
    let record = here.node.record;
    let functions = &here.program.functions;
    let called = functions.get(usize::from(record.b));
    called.filter(|_| record.kind == CALL)
}

/// Why this is expected: what it is a part of; and if that gives what its part
/// gives, then why it is expected of that one.
fn reasons(here: Here, expected: Type) -> Vec<Detail> {
    let of_function = || here.of_function(format!("function {} gives a {expected}", here.k));
    let path = here.path();
    let Some(last) = path.last() else {
        return vec![of_function()];
    };
    let part_of = |whole: &Node, part| {
        let (part, record) = (part_name(whole.record, part), quoted(whole.record));
        format!("the {part} of {record}")
    };
    let part = part_of(last.whole, last.part);
    let mut reasons = vec![Detail::of(last.whole.number, format!("this is {part}"))];
    let demands = |step: &Step| kinds::expected(step.whole.record.kind, step.part).is_some();
    let Some(index) = path.iter().rposition(demands) else {
        reasons.push(of_function());
        return reasons;
    };
    if let (Some(step), Some(below)) = (path.get(index), path.get(index + 1)) {
        let (outer, part) = (quoted(below.whole.record), part_of(step.whole, step.part));
        let text = if below.whole.number == last.whole.number {
            format!("{outer} is {part}")
        } else {
            format!("this stands inside {outer}, which is {part}")
        };
        reasons.push(Detail::of(step.whole.number, text));
    }
    reasons
}

/// Refusal 10.
fn words(here: Here, words: usize) -> Result<(), Found> {
    let record = here.node.record;
    let one_more = match record.kind {
        CONST | VAR => "this".to_owned(),
        CASE => format!("the label of tree {}", record.a),
        CALL if gives_number_without_arguments(here) => "this".to_owned(),
        _ => return Ok(()),
    };
    if words < MOST_WORDS {
        return Ok(());
    }
    let message = format!(
        "no more than {MOST_WORDS} numbers (words) may be held at a time, \
         and {one_more} would be the {}th",
        MOST_WORDS + 1
    );
    let found = Found::new(10, here.node.number, message);
    Err(found.with_all(bound::words(here)))
}

fn gives_number_without_arguments(here: Here) -> bool {
    called(here)
        .is_some_and(|function| function.record.a == 0 && function.record.result() == Type::Number)
}
