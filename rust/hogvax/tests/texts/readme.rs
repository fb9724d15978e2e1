//! `samples/texts/README.md`.

use crate::trial::{assert_true, read};

const PAGE: &str = "samples/texts/README.md";

#[test]
fn the_readme_of_the_texts_is_true() {
    assert_true(PAGE);
}

#[test]
fn all_that_the_readme_of_the_texts_shows_is_tried() {
    let others: Vec<usize> = read(PAGE).others.iter().map(|block| block.line).collect();
    assert_eq!(others, [0; 0], "lines of blocks that are not tried");
}
