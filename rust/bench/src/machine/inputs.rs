//! The programs, and the trees that they run over.

use bench::trees::{balanced, deepest_caterpillar, small_trees};

pub struct Program {
    pub name: &'static str,
    /// The program file.
    pub file: Vec<u8>,
    /// Its code, translated beforehand.
    pub code: Vec<u8>,
    /// The calls open where its tree begins, the first frame counted.
    pub open: usize,
}

/// Grow, Sum and Fill; see `bench::programs`.
pub fn programs() -> [Program; 3] {
    bench::programs::programs().map(|program| Program {
        name: program.name,
        code: hogvax::translate(&program.file).expect("a checked program"),
        file: program.file,
        open: program.open,
    })
}

/// Trees, each an input of its own, and how often a round goes over them all.
pub struct Input {
    pub name: &'static str,
    pub trees: Vec<Vec<u8>>,
    pub passes: usize,
}

/// The shapes of trees for a program. A round performs some ten million
/// instructions.
pub fn inputs(program: &Program) -> [Input; 3] {
    [
        Input {
            name: "100 trees of 1,000 tips",
            trees: small_trees(),
            passes: 10,
        },
        Input {
            name: "balanced, 2^20 tips",
            trees: vec![balanced(1 << 20)],
            passes: 1,
        },
        Input {
            name: "caterpillar, 1,024 calls open",
            trees: vec![deepest_caterpillar(program.open)],
            passes: 1_000,
        },
    ]
}
