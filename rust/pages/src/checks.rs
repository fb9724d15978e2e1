//! What must hold of the files in which believed definitions stand.

use std::collections::BTreeSet;

use crate::closure::{is_proof, Believed, Closure};
use crate::imports::Module;
use crate::project::Project;
use crate::words::uses;

/// Whether a file holds what nobody need believe: `CRATE/specs/Inner/FILE`.
pub fn is_inner(place: &str) -> bool {
    place.split('/').nth(2) == Some("Inner") && place.split('/').count() > 3
}

/// Whether a file only lists others: `Lib.antt`, or `Inner.antt`.
fn is_list(project: &Project, place: &str) -> bool {
    project.files[place].items.is_empty()
}

/// The believed definitions that stand in proofs/ or in specs/Inner/.
pub fn misplaced(project: &Project, closure: &Closure) -> Vec<String> {
    let all = closure.rests_on.keys();
    let faults = all.filter_map(|one| match one {
        Believed::Proved(place, name) => Some(format!("{place}: {name}")),
        Believed::Definition(place, item) if is_inner(place) => Some(format!(
            "{place}: {}",
            project.files[place].items[*item].name
        )),
        _ => None,
    });
    faults.collect()
}

/// The files of specs/ outside Inner/ in which nothing is believed.
pub fn idle_files(project: &Project, closure: &Closure) -> Vec<String> {
    let believed = closure.files();
    let all = project.files.keys();
    let idle = all.filter(|place| !is_inner(place) && !believed.contains_key(&place[..]));
    let idle = idle.filter(|place| !is_list(project, place));
    idle.cloned().collect()
}

/// The definitions in believed files that nothing believed rests on.
pub fn idle_definitions(project: &Project, closure: &Closure) -> Vec<String> {
    let mut faults = Vec::new();
    for (place, believed) in closure.files() {
        let items = project.files[place].items.iter().enumerate();
        let idle = items.filter(|(number, _)| !believed.contains(number));
        faults.extend(idle.map(|(_, item)| format!("{place}: {}", item.name)));
    }
    faults
}

/// The imports of believed files from proofs/.
pub fn imports_from_proofs(project: &Project, closure: &Closure) -> Vec<String> {
    let mut faults = Vec::new();
    for place in closure.files().into_keys() {
        for import in &project.files[place].imports {
            if let Module::File(from) = &import.module {
                if is_proof(from) {
                    faults.push(format!("{place} imports from {from}"));
                }
            }
        }
    }
    faults
}

/// The names that believed files import and don't use.
pub fn unused_imports(project: &Project, closure: &Closure) -> Vec<String> {
    let mut faults = Vec::new();
    for place in closure.files().into_keys() {
        let file = &project.files[place];
        let words = file.items.iter().flat_map(|item| &item.words);
        let words: BTreeSet<String> = words.cloned().collect();
        for import in &file.imports {
            let names = import.names.iter().map(|name| &name.here);
            let unused = names
                .chain(&import.whole)
                .filter(|name| !uses(&words, name));
            faults.extend(unused.map(|name| format!("{place}: {name}")));
        }
    }
    faults
}
