//! Words that texts and explanations have in common.

use super::records::{Record, CALL, KINDS};

/// A record as a text has it, in quotation marks.
pub fn quoted(record: Record) -> String {
    format!("'{record}'")
}

/// What a part of a record, counted from 0, is called.
pub fn part_name(whole: Record, part: usize) -> String {
    const ORDINALS: [&str; 4] = ["first", "second", "third", "fourth"];
    if whole.kind == CALL {
        let ordinal = ORDINALS.get(part).unwrap_or(&"next");
        return format!("{ordinal} argument");
    }
    let kind = KINDS.get(usize::from(whole.kind));
    let name = kind.and_then(|kind| kind.parts.get(part));
    name.unwrap_or(&"next part").to_string()
}

/// So many names from this one on: `number 0`, `trees 1 and 2`,
/// `numbers 0 to 3`.
pub fn names(what: &str, first: usize, count: usize) -> String {
    let last = first + count.saturating_sub(1);
    match count {
        0 => format!("no {what}"),
        1 => format!("{what} {first}"),
        2 => format!("{what}s {first} and {last}"),
        _ => format!("{what}s {first} to {last}"),
    }
}

/// So many things: `1 argument`, `2 arguments`.
pub fn counted(count: usize, what: &str) -> String {
    match count {
        1 => format!("1 {what}"),
        _ => format!("{} {what}s", grouped(count)),
    }
}

/// `is` or `are`.
pub fn verb(count: usize) -> &'static str {
    if count < 2 {
        "is"
    } else {
        "are"
    }
}

/// `a`, `a and b`, `a, b and c`.
pub fn joined(words: &[String]) -> String {
    match words {
        [] => String::new(),
        [only] => only.clone(),
        [first @ .., last] => format!("{} and {last}", first.join(", ")),
    }
}

/// A number below a million, with a comma before its thousands.
pub fn grouped(number: usize) -> String {
    if number < 1_000 {
        return number.to_string();
    }
    format!("{},{:03}", number / 1_000, number % 1_000)
}
