//! The trees of a function at some point of pass two, and what is said where
//! they are not taken in order.

use super::super::outline::{FunctionOutline, Node, Outline};
use super::super::wording::{joined, part_name, quoted};
use super::{Detail, Found};

const MOST_PENDING: usize = 16;

#[derive(Clone, Default)]
pub struct Trees {
    /// The names of the pending trees, the first to be taken first.
    pending: Vec<usize>,
    /// The trees taken, each with the record that took it. A tree that both
    /// branches of a Case or IfZero took is here twice.
    taken: Vec<(usize, usize)>,
}

/// A branch of a Case or IfZero that is finished.
pub struct Branch {
    pub part: usize,
    /// Its first record.
    pub record: usize,
    pub behind: Trees,
}

impl Trees {
    pub fn at_first() -> Trees {
        Trees {
            pending: vec![0],
            taken: Vec::new(),
        }
    }

    /// This record takes the first of the pending trees.
    pub fn take_first(&mut self, by: &Node) {
        if !self.pending.is_empty() {
            let tree = self.pending.remove(0);
            self.taken.push((tree, by.number));
        }
    }

    /// At the beginning of a Case's node part.
    pub fn with_both(&self, case: &Node) -> Trees {
        let mut trees = self.clone();
        trees.pending.splice(0..0, [case.trees, case.trees + 1]);
        trees
    }

    /// After two branches that began with these trees and leave the same
    /// pending. The names that a branch binds mean nothing after it.
    pub fn behind_both(&self, node: &Node, one: Trees, two: Trees) -> Trees {
        let by_two = two.taken.into_iter().skip(self.taken.len());
        let mut both = one;
        both.taken.extend(by_two);
        both.taken.retain(|&(tree, _)| tree < node.trees);
        both
    }
}

/// The trees with these names, or `none`.
fn list(names: &[usize]) -> String {
    if names.is_empty() {
        return "none".to_owned();
    }
    each_named(names).join(", ")
}

fn each_named(names: &[usize]) -> Vec<String> {
    names.iter().map(|name| format!("tree {name}")).collect()
}

fn pending(trees: &Trees) -> Detail {
    Detail::new(format!("pending: {}", list(&trees.pending)))
}

/// Refusal 11, at a Case or Call: its tree is the first of the pending ones.
pub fn must_be_first(program: &Outline, node: &Node, trees: &Trees) -> Result<(), Found> {
    let asked = usize::from(node.record.a);
    let place = trees.pending.iter().position(|&tree| tree == asked);
    let message = match place {
        Some(0) => return Ok(()),
        Some(_) => "this is not the first of the pending trees",
        None => "this tree is not pending any more",
    };
    let found = Found::new(11, node.number, message);
    let found = found.with(pending(trees));
    let found = found.with(Detail::new(format!("asked for: tree {asked}")));
    Err(match place {
        Some(place) => found.with(come_first(trees, place)),
        None => found.with_all(takers(program, node, trees)),
    })
}

/// The pending trees before this place of the list.
fn come_first(trees: &Trees, place: usize) -> Detail {
    let before: Vec<usize> = trees.pending.iter().copied().take(place).collect();
    let verb = if place == 1 { "comes" } else { "come" };
    Detail::new(format!("{} {verb} first", joined(&each_named(&before))))
}

/// The records that took the tree of this one before.
fn takers(program: &Outline, node: &Node, trees: &Trees) -> Vec<Detail> {
    let asked = usize::from(node.record.a);
    let takers = trees.taken.iter().filter(|&&(tree, _)| tree == asked);
    let details = takers.filter_map(|&(tree, number)| {
        let by = quoted(program.node(number)?.record);
        // Of later records only a Call's arguments come before it.
        let inside = if number > node.number {
            ", in an argument of this Call"
        } else {
            ""
        };
        let text = format!("tree {tree} was taken by {by}{inside}");
        Some(Detail::of(number, text))
    });
    details.collect()
}

/// Refusal 12: a Case takes a tree and puts two in front, and finds room.
pub fn must_have_room(case: &Node, trees: &Trees) -> Result<(), Found> {
    if trees.pending.len() < MOST_PENDING {
        return Ok(());
    }
    let message = format!(
        "no more than {MOST_PENDING} trees may be pending, and this Case would make it {}",
        MOST_PENDING + 1
    );
    Err(Found::new(12, case.number, message).with(pending(trees)))
}

/// Refusal 11: the branches of a Case or IfZero leave the same trees pending.
pub fn must_be_equal(node: &Node, one: &Branch, two: &Branch) -> Result<(), Found> {
    if one.behind.pending == two.behind.pending {
        return Ok(());
    }
    let [first, second] = [one, two].map(|branch| part_name(node.record, branch.part));
    let message = format!("its {first} and its {second} leave different trees pending");
    let detail = |branch: &Branch, name: String| {
        let left = list(&branch.behind.pending);
        Detail::of(branch.record, format!("after the {name}: {left}"))
    };
    let found = Found::new(11, node.number, message);
    Err(found.with(detail(one, first)).with(detail(two, second)))
}

/// Refusal 11: a function leaves no tree. Only its parameter can be left,
/// because the names that it binds end with their node parts.
pub fn must_be_through(k: usize, function: &FunctionOutline, trees: &Trees) -> Result<(), Found> {
    if trees.pending.is_empty() {
        return Ok(());
    }
    let message =
        format!("function {k} ends with a tree pending; every tree must be taken, once, in order");
    let left = Detail::new(format!("left: {}", list(&trees.pending)));
    Err(Found::new(11, function.first, message).with(left))
}
