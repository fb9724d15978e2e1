//! The trees that are read. Random trees and mixed caterpillars all differ, so
//! that no branch predictor learns one by heart.

use reference::generate::{balanced, left_caterpillar, mixed_caterpillar, right_caterpillar, tree};
use reference::{Random, Tree, DEPTH_LIMIT};

/// An input of trees back to back.
pub struct Shape {
    pub name: &'static str,
    pub bytes: Vec<u8>,
    pub trees: usize,
}

impl Shape {
    fn new(name: &'static str, trees: usize, mut make: impl FnMut() -> Tree) -> Shape {
        let bytes = (0..trees).flat_map(|_| make().tokens()).collect();
        Shape { name, bytes, trees }
    }
}

/// Six megabytes of each shape.
pub fn shapes() -> [Shape; 6] {
    let random = &mut Random::new(1);
    [
        Shape::new("balanced, 2^20 tips", 1, || balanced(random, 1 << 20)),
        Shape::new("1,000 trees of 1,000 tips", 1_000, || tree(random, 1_000)),
        Shape::new("1,000 mixed caterpillars", 1_000, || {
            mixed_caterpillar(random, DEPTH_LIMIT)
        }),
        Shape::new("1,000 left caterpillars", 1_000, || {
            left_caterpillar(random, DEPTH_LIMIT)
        }),
        Shape::new("1,000 right caterpillars", 1_000, || {
            right_caterpillar(random, DEPTH_LIMIT)
        }),
        Shape::new("200,000 trees of 1 to 10 tips", 200_000, || {
            let tips = 1 + random.below(10);
            tree(random, tips)
        }),
    ]
}
