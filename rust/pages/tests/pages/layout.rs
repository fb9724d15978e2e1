//! Where believed definitions stand, and that nothing else stands there.

use pages::believe::reading_order;
use pages::checks::{idle_definitions, idle_files, imports_from_proofs, misplaced, unused_imports};
use pages::closure::Closure;
use pages::project::Project;

type Check = fn(&Project, &Closure) -> Vec<String>;

const CHECKS: [(&str, Check); 5] = [
    (
        "nothing believed stands in proofs/ or specs/Inner/",
        misplaced,
    ),
    ("no believed file imports from proofs/", imports_from_proofs),
    ("every import of a believed file is used", unused_imports),
    (
        "every file outside specs/Inner/ has something believed",
        idle_files,
    ),
    (
        "every definition of a believed file is believed",
        idle_definitions,
    ),
];

#[test]
fn what_is_believed_stands_in_its_place() {
    let project = Project::here();
    let closure = Closure::new(&project);
    for (name, check) in CHECKS {
        let faults = check(&project, &closure);
        assert_eq!(faults, [""; 0], "{name}");
    }
}

#[test]
fn each_file_comes_after_those_that_it_rests_on() {
    let project = Project::here();
    let closure = Closure::new(&project);
    let mut read: Vec<&str> = Vec::new();
    for place in &project.crates {
        for file in reading_order(&project, &closure, place) {
            let under = closure.files_under(file);
            let missing: Vec<_> = under.iter().filter(|one| !read.contains(one)).collect();
            assert!(missing.is_empty(), "{file} comes before {missing:?}");
            read.push(file);
        }
    }
    assert_eq!(read.len(), closure.files().len());
}
