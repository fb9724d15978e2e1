//! The page of the wrong answers that are ruled out.

use std::collections::BTreeSet;

use crate::edits::Edit;
use crate::functions::{public, Function};
use crate::project::Project;
use crate::text::{counted, quoted, wrapped, MADE};

/// A function with fewer than two edits of its own, the functions that it calls for
/// its answer, whose edits change that too, and why. The edits of a function that
/// forwards to another are that one's.
pub struct Beside {
    pub function: &'static str,
    pub others: &'static [&'static str],
    pub why: &'static str,
}

const ANSWERS: &str = "the first one's answer, put into the lent answer by the second";

pub const BESIDE: [Beside; 7] = [
    Beside {
        function: "decode: decode",
        others: &[
            "part_locations: inside",
            "part_locations: note_case",
            "record_rows: own_of",
        ],
        why: "a row of its table is what these give for a record",
    },
    Beside {
        function: "file_calls: pack",
        others: &["files: write_file", "answers: report"],
        why: ANSWERS,
    },
    Beside {
        function: "file_calls: unpack",
        others: &["files: read_file", "answers: report"],
        why: ANSWERS,
    },
    Beside {
        function: "check_calls: check",
        others: &["order: check_file", "answers: report_verdict"],
        why: ANSWERS,
    },
    Beside {
        function: "check_calls: check_records",
        others: &["order: check_records", "answers: report_verdict"],
        why: ANSWERS,
    },
    Beside {
        function: "translate_calls: translate",
        others: &["translate: translate_file", "answers: report"],
        why: ANSWERS,
    },
    Beside {
        function: "run_calls: run",
        others: &["runner: run", "run_answers: report_run"],
        why: ANSWERS,
    },
];

const INTRODUCTION: &str = "Each must-fail edit puts a wrong answer into a function or a \
    definition, and the check must refuse it. An edit of a function stands below each public \
    function that uses what it changes; its sentence stands where it comes first. An edit of a \
    definition names a closed case that comes out differently. Edits stand in their crate's \
    `must-fail/`. With a method stands the `impl` that it is of.";

/// The page `docs/WRONG-ANSWERS.md`.
pub fn page(project: &Project, edits: &[Edit]) -> String {
    let mut page = format!("# Wrong answers that are ruled out\n{MADE}\n\n");
    page += &wrapped("", "", INTRODUCTION);
    let of_definitions = edits.iter().filter(|edit| edit.is_of_definition()).count();
    page += &format!(
        "\n{}: {} of functions, {of_definitions} of definitions.\n",
        counted(edits.len(), "edit"),
        edits.len() - of_definitions
    );
    page += "\n## Functions\n\n";
    let mut seen = BTreeSet::new();
    for place in &project.crates {
        for function in public(project, place) {
            page += &of_function(project, &function, edits, &mut seen);
        }
    }
    page + "\n## Definitions\n\n" + &of_definitions_in(project, edits)
}

/// A function's edits: those that come first here with their sentences, then the others.
fn of_function<'a>(
    project: &Project,
    function: &Function,
    edits: &'a [Edit],
    seen: &mut BTreeSet<(&'a str, &'a str)>,
) -> String {
    let shown = function.shown();
    if let Some(other) = function.forwards_to(project) {
        let said = format!("{shown}: a call of {}, with its contract", other.shown());
        return wrapped("- ", "  ", &said);
    }
    let mut page = format!("- {shown}\n");
    let mut known = Vec::new();
    for edit in function.edits(edits) {
        if seen.insert((&edit.place, &edit.name)) {
            page += &wrapped("  - ", "    ", &format!("`{}`: {}", edit.name, edit.says));
        } else {
            known.push(&edit.name);
        }
    }
    if !known.is_empty() {
        page += &wrapped("  - ", "    ", &format!("as above: {}", quoted(known)));
    }
    let title = function.title();
    for beside in BESIDE.iter().filter(|one| one.function == title) {
        let said = format!("those of {} ({})", quoted(beside.others), beside.why);
        page += &wrapped("  - ", "    ", &said);
    }
    page
}

/// The edits of definitions, file by file, in the order of `crates.txt` and of the file.
fn of_definitions_in(project: &Project, edits: &[Edit]) -> String {
    let files = |place: &String| {
        let start = format!("{place}/");
        let files = project.files.iter();
        files.filter(move |(file, _)| file.starts_with(&start))
    };
    let mut page = String::new();
    for (place, file) in project.crates.iter().flat_map(files) {
        let here = edits.iter().filter(|edit| &edit.file == place);
        let mut here: Vec<&Edit> = here.collect();
        here.sort_by_key(|edit| file.declaring(&edit.changes[0]).first().copied());
        if !here.is_empty() {
            page += &format!("- `{place}`\n");
        }
        for edit in here {
            let said = format!(
                "`{}` in {}: {}",
                edit.name,
                quoted(&edit.changes),
                edit.says
            );
            page += &wrapped("  - ", "    ", &said);
        }
    }
    page
}

/// What is wrong with the edits: a function with a contract of its own and fewer than two, or with
/// those of other public functions alone; or a line of the table above that is not needed or not
/// true.
pub fn faults(project: &Project, edits: &[Edit]) -> Vec<String> {
    let all = project.crates.iter();
    let all: Vec<Function> = all.flat_map(|place| public(project, place)).collect();
    let with_contracts = all.iter().filter(|one| one.declaration.has_contract());
    let faults = with_contracts.filter_map(|one| fault(project, &all, one, edits));
    let known = |title: &str| all.iter().any(|one| one.title() == title);
    let unknown = BESIDE.iter().filter(|one| !known(one.function));
    let unknown = unknown.map(|one| format!("there is no {}", one.function));
    faults.chain(unknown).collect()
}

fn fault(project: &Project, all: &[Function], one: &Function, edits: &[Edit]) -> Option<String> {
    let title = one.title();
    let all_edits = one.edits(edits).len();
    let own = one.own_edits(edits).len();
    let beside = BESIDE.iter().find(|beside| beside.function == title);
    let has_two = |name: &&str| {
        let mut named = all.iter().filter(|other| other.title() == **name);
        named.any(|other| {
            let forwarded = other.forwards_to(project);
            forwarded.as_ref().unwrap_or(other).edits(edits).len() >= 2
        })
    };
    let calls = |name: &&str| one.calls(&name.replace(": ", "::"));
    match beside {
        _ if one.forwards_to(project).is_some() => None,
        None if all_edits < 2 => Some(format!("{title} has {}", counted(all_edits, "edit"))),
        _ if own == 0 => Some(format!("{title} has no edit of its own")),
        None => None,
        Some(_) if all_edits >= 2 => Some(format!("{title} has two edits of its own")),
        Some(beside) => {
            let wrong = beside
                .others
                .iter()
                .find(|other| !calls(other) || !has_two(other));
            wrong.map(|other| format!("{title} does not call {other}, or that has no two edits"))
        }
    }
}
