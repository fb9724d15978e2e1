//! The two ways of a source run, lent the same output.

use std::hint::black_box;

use bench::programs::Program;
use hogvax::{Refused, Sourced, WorkSpace};
use reference::source::Prepared;

#[derive(Clone, Copy)]
pub enum Way {
    /// The library's: the file is read and checked in every run.
    Proved,
    /// The reference's: by recursion on the expression and the tree, which it
    /// builds.
    Recursive,
}

pub const WAYS: [Way; 2] = [Way::Proved, Way::Recursive];

/// What is lent to a run.
pub struct Lent {
    work: WorkSpace,
    pub output: Vec<u8>,
}

impl Lent {
    /// With an output of so many bytes.
    pub fn new(output: usize) -> Lent {
        Lent {
            work: WorkSpace::new(),
            output: vec![0; output],
        }
    }

    /// With an output as long as the longest of these trees.
    pub fn for_trees(trees: &[Vec<u8>]) -> Lent {
        Lent::new(trees.iter().map(Vec::len).max().unwrap_or(0))
    }
}

/// The source run over one tree, with fuel enough.
pub fn sourced(
    way: Way,
    file: &[u8],
    recursive: &Prepared,
    input: &[u8],
    lent: &mut Lent,
) -> Sourced {
    let Lent { work, output } = lent;
    match way {
        Way::Proved => hogvax::source_in(work, file, input, u64::MAX, output),
        Way::Recursive => answer(recursive.run(input, u64::MAX, output)),
    }
}

fn answer(sourced: reference::Sourced) -> Sourced {
    let refused = sourced.refused.map(|refusal| Refused {
        number: refusal.number.into(),
        position: refusal.position as u64,
    });
    Sourced {
        refused,
        begun: sourced.begun,
        written: sourced.written,
        number: sourced.number,
        tips: sourced.tips,
        depth: sourced.depth,
    }
}

/// Runs a program once over each tree; the expressions begun.
pub fn pass(
    way: Way,
    program: &Program,
    recursive: &Prepared,
    trees: &[Vec<u8>],
    lent: &mut Lent,
) -> u64 {
    let over = |tree: &Vec<u8>| {
        let file = black_box(&program.file);
        let told = sourced(way, file, recursive, black_box(tree), lent);
        assert!(told.refused.is_none(), "{told}");
        told.begun
    };
    trees.iter().map(over).sum()
}
