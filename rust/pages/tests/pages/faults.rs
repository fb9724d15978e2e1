//! The checks can fail: each fault is found in a small project.

use crate::small::project;
use pages::checks::{idle_definitions, idle_files, imports_from_proofs, misplaced, unused_imports};
use pages::closure::{definitions, Closure};
use pages::project::Project;

fn with_closure(project: Project) -> (Project, Closure) {
    let closure = Closure::from(&project, definitions(&project, "one/specs/A", "top"));
    (project, closure)
}

const A: &str = "use Kit.Nat.{N, ◌+◌, ◌*◌}\nuse Rattle.two.specs.Inner.B.{deep}\n\
    use Rattle.two.proofs.C.{shown}\nuse Rattle.two.specs.D.{far}\n\
    top : N\ntop = deep + shown\nidle : N\nidle = far\n";

#[test]
fn each_fault_is_found() {
    let files = [
        ("one/specs/Lib", "pub mod A\n"),
        ("one/specs/A", A),
        ("two/specs/Inner", "pub mod B\n"),
        ("two/specs/Inner/B", "deep : K\n"),
        ("two/specs/Inner/E", "none : K\n"),
        ("two/specs/D", "far : K\n"),
    ];
    let (project, closure) = with_closure(project(&files, &[]));
    let found = misplaced(&project, &closure);
    assert_eq!(found, ["two/specs/Inner/B: deep", "two/proofs/C: shown"]);
    let found = imports_from_proofs(&project, &closure);
    assert_eq!(found, ["one/specs/A imports from two/proofs/C"]);
    assert_eq!(unused_imports(&project, &closure), ["one/specs/A: ◌*◌"]);
    assert_eq!(idle_files(&project, &closure), ["two/specs/D"]);
    assert_eq!(idle_definitions(&project, &closure), ["one/specs/A: idle"]);
}

#[test]
fn a_project_without_faults_has_none() {
    let files = [("one/specs/A", "use Kit.{N}\ntop : N\ntop = 0\n")];
    let (project, closure) = with_closure(project(&files, &[]));
    for check in [
        misplaced,
        imports_from_proofs,
        unused_imports,
        idle_files,
        idle_definitions,
    ] {
        assert_eq!(check(&project, &closure), [""; 0]);
    }
}
