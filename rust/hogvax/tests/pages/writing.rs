//! `docs/WRITING.md`.

use crate::trial::{assert_true, read};

const PAGE: &str = "docs/WRITING.md";

#[test]
fn the_page_on_writing_is_true() {
    assert_true(PAGE);
}

/// Every block is a program or commands, and every program is in a command: a
/// block that is not tried could be wrong.
#[test]
fn all_that_the_page_on_writing_shows_is_tried() {
    let page = read(PAGE);
    let others: Vec<usize> = page.others.iter().map(|block| block.line).collect();
    assert_eq!(others, [0; 0], "lines of blocks that are not tried");
    for (name, _) in page.files() {
        let used = page.commands().any(|command| command.contains(name));
        assert!(used, "{name}");
    }
    assert!(page.files().count() >= 9);
    assert!(page.commands().count() >= 10);
}
