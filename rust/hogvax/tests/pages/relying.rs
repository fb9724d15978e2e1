//! `docs/RELYING.md`. What it cites is looked up in `names`.

use crate::trial::assert_true;

#[test]
fn the_page_on_relying_is_true() {
    assert_true("docs/RELYING.md");
}
