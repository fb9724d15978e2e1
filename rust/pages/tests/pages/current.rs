//! The generated pages are what the sources give.

use std::fs;

use pages::project::Project;

#[test]
fn the_generated_pages_are_current() {
    let project = Project::here();
    for (place, text) in pages::pages(&project) {
        let now = fs::read_to_string(project.root.join(place)).unwrap_or_default();
        assert!(
            now == text,
            "{place} is not current: `cargo run --release --offline -p pages` in rust/ writes it"
        );
        assert_eq!(text.lines().nth(1), Some(pages::text::MADE));
    }
}
