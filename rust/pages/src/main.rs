//! Writes all generated pages.

use std::fs;

fn main() {
    let project = pages::project::Project::here();
    for (place, text) in pages::pages(&project) {
        let path = project.root.join(place);
        fs::write(&path, text).unwrap_or_else(|why| panic!("{}: {why}", path.display()));
        println!("{place}");
    }
}
