//! The trees that the programs run over: those of the stream machine's
//! benchmark, with a smaller balanced tree.

use bench::programs::Program;
use bench::trees::{balanced, deepest_caterpillar, small_trees};

/// Trees, each an input of its own.
pub struct Input {
    pub name: &'static str,
    pub trees: Vec<Vec<u8>>,
}

/// The shapes of trees for a program.
pub fn inputs(program: &Program) -> [Input; 3] {
    [
        Input {
            name: "100 trees of 1,000 tips",
            trees: small_trees(),
        },
        Input {
            name: "balanced, 2^16 tips",
            trees: vec![balanced(1 << 16)],
        },
        Input {
            name: "caterpillar, 1,024 calls open",
            trees: vec![deepest_caterpillar(program.open)],
        },
    ]
}
