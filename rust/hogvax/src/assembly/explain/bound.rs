//! The names bound at a record and the words that stand there, with what they
//! come from.

use super::super::records::{Type, ADD, CALL, CASE, LET};
use super::super::wording::{names, part_name, quoted};
use super::here::{Here, Step};
use super::Detail;

/// What binds the numbers or trees that can be named here, the oldest first.
pub fn binders(here: Here, what: Type) -> Vec<Detail> {
    let path = here.path().into_iter();
    match what {
        Type::Number => {
            let parameters = number_parameters(here).into_iter();
            parameters.chain(path.filter_map(number)).collect()
        }
        Type::Tree => {
            let parameter = format!("tree 0: the tree parameter of function {}", here.k);
            let parameter = here.of_function(parameter);
            [parameter]
                .into_iter()
                .chain(path.filter_map(trees))
                .collect()
        }
    }
}

/// What the words that stand here are, the oldest first: the numbers that can
/// be named, and those that wait for others.
pub fn words(here: Here) -> Vec<Detail> {
    let parameters = number_parameters(here).into_iter();
    let path = here.path().into_iter();
    let path = path.filter_map(|step| number(step).or_else(|| waiting(step)));
    parameters.chain(path).collect()
}

/// A record around this one that binds the name in another part.
pub fn in_another_part(here: Here, what: Type, name: usize) -> Option<Detail> {
    here.path().into_iter().rev().find_map(|step| {
        let whole = step.whole;
        let (first, count, part) = match (what, whole.record.kind, step.part) {
            (Type::Number, CASE, 1) => (whole.numbers, 1, 0),
            (Type::Number, LET, 0) => (whole.numbers, 1, 1),
            (Type::Tree, CASE, 0) => (whole.trees, 2, 1),
            _ => return None,
        };
        if !(first..first + count).contains(&name) {
            return None;
        }
        let (record, part) = (quoted(whole.record), part_name(whole.record, part));
        let bound = names(&what.to_string(), first, count);
        let text = format!("{record} binds {bound} in its {part} only");
        Some(Detail::of(whole.number, text))
    })
}

fn number_parameters(here: Here) -> Option<Detail> {
    let count = usize::from(here.function.record.a);
    let parameters = match count {
        0 => return None,
        1 => "number parameter",
        _ => "number parameters",
    };
    let names = names("number", 0, count);
    let text = format!("{names}: the {parameters} of function {}", here.k);
    Some(here.of_function(text))
}

/// The number that a record binds in this part.
fn number(step: Step) -> Option<Detail> {
    let record = step.whole.record;
    let (name, quoted) = (step.whole.numbers, quoted(record));
    let text = match (record.kind, step.part) {
        (LET, 1) => format!("number {name}: the number of {quoted}"),
        (CASE, 0) => format!("number {name}: the label of tree {}, by {quoted}", record.a),
        _ => return None,
    };
    Some(Detail::of(step.whole.number, text))
}

/// The trees that a record binds in this part.
fn trees(step: Step) -> Option<Detail> {
    let record = step.whole.record;
    if (record.kind, step.part) != (CASE, 1) {
        return None;
    }
    let (names, quoted) = (names("tree", step.whole.trees, 2), quoted(record));
    let text = format!(
        "{names}: the left and right tree of tree {}, by {quoted}",
        record.a
    );
    Some(Detail::of(step.whole.number, text))
}

/// The numbers that wait until this part is finished.
fn waiting(step: Step) -> Option<Detail> {
    let record = step.whole.record;
    let quoted = quoted(record);
    let text = match (record.kind, step.part) {
        (ADD, 1) | (CALL, 1) => format!("waiting: the {} of {quoted}", part_name(record, 0)),
        (CALL, 2..) => format!("waiting: the first {} arguments of {quoted}", step.part),
        _ => return None,
    };
    Some(Detail::of(step.whole.number, text))
}
