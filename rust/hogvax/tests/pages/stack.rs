//! The stack that `docs/CALLING.md` asks for is enough for the deepest programs
//! and trees.

use std::thread;

use reference::generate::{left_caterpillar, right_caterpillar};
use reference::order::known;
use reference::{lay_out, Random, DEPTH_LIMIT};

use crate::trial::text;

/// The page's "1 MiB".
const STACK: usize = 1 << 20;

/// Makes every call with this program file and this input: how many of check,
/// translator, stream run, source run and tree reader refused.
fn refusals(file: &[u8], input: &[u8]) -> usize {
    let mut output = vec![0; 20_000];
    let refused = [
        hogvax::check(file).is_err(),
        hogvax::translate(file).is_err(),
        hogvax::run(file, input, 100_000, &mut output)
            .refused
            .is_some(),
        hogvax::source(file, input, 100_000, &mut output)
            .refused
            .is_some(),
        hogvax::tree(input).is_err(),
    ];
    refused.into_iter().filter(|&refused| refused).count()
}

/// Caterpillars both ways, as deep as the tree reader takes them and one
/// deeper.
fn inputs() -> Vec<Vec<u8>> {
    let mut random = Random::new(1);
    let depths = [DEPTH_LIMIT, DEPTH_LIMIT + 1];
    let both = depths.map(|depth| {
        let left = left_caterpillar(&mut random, depth);
        [left, right_caterpillar(&mut random, depth)].map(|tree| tree.tokens())
    });
    both.concat()
}

#[test]
fn a_stack_of_1_mib_is_enough() {
    let page = text("docs/CALLING.md");
    let words: Vec<&str> = page.split_whitespace().collect();
    assert!(words
        .join(" ")
        .contains("up to 1 MiB of its thread's stack"));
    let programs = known::all().into_iter().map(|known| known.program);
    let files: Vec<Vec<u8>> = programs.map(|one| lay_out(&one.records())).collect();
    let inputs = inputs();
    let (mut none, mut some, mut all) = (0, 0, 0);
    for file in &files {
        for input in &inputs {
            let refused = thread::scope(|scope| {
                let thread = thread::Builder::new().stack_size(STACK);
                let calls = thread.spawn_scoped(scope, || refusals(file, input));
                calls.unwrap().join().unwrap()
            });
            match refused {
                0 => none += 1,
                5 => all += 1,
                _ => some += 1,
            }
        }
    }
    assert!(none > 0 && some > 0 && all > 0, "{none} {some} {all}");
}
