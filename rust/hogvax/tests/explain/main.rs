//! Why a program is refused, in words, and lines whose indentation misleads.

mod any_records;
mod indentation;
mod known_names;
mod known_order;
mod known_rows;
mod mended;
mod sums;
mod walk;

use std::sync::OnceLock;

use hogvax::assembly::{explain, read, Explanation};
use hogvax::Refused;
use reference::generate::{
    changed_program, damaged_records, order_damage, ordered, program_shapes, programs, sources,
    RecordDamage,
};
use reference::order::known;
use reference::{shown, Fault, Random, Record};

/// Records, and what the check says of them.
struct Checked {
    records: Vec<u8>,
    refused: Option<Refused>,
}

/// Programs made at random, right ones and such as are refused in every way;
/// programs at the limits; and programs with known answers.
fn programs() -> &'static [Checked] {
    static PROGRAMS: OnceLock<Vec<Checked>> = OnceLock::new();
    PROGRAMS.get_or_init(|| {
        let mut random = Random::new(200);
        let mut all = Vec::new();
        for known in known::all() {
            all.push(known.program.records());
        }
        for program in program_shapes::extremes(&mut random) {
            all.push(program.records());
        }
        for _ in 0..90 {
            add_random_programs(&mut random, &mut all);
        }
        all.into_iter().map(Checked::new).collect()
    })
}

impl Checked {
    fn new(records: Vec<u8>) -> Checked {
        let refused = hogvax::check_records(&records).err();
        Checked { records, refused }
    }
}

/// One of each way to make them.
fn add_random_programs(random: &mut Random, all: &mut Vec<Vec<u8>>) {
    let program = ordered::any_program(random);
    let records = program.records();
    for _ in 0..3 {
        all.push(changed_program(random, &program).records());
        all.push(damaged_records(random, &records));
    }
    for fault in Fault::ALL {
        let damaged = order_damage::apply(fault, random, &program);
        all.extend(damaged.map(|(program, _)| program.records()));
    }
    for damage in RecordDamage::ALL {
        let damaged = damage.apply(random, &records);
        all.extend(damaged.map(|(records, _)| records));
    }
    all.push(records);
    all.push(programs::any_program(random).records());
    all.push(programs::loose_records(random, 2, 12));
    for make in [sources::unordered, sources::crowded, sources::many_names] {
        all.push(make(random).records());
    }
}

/// The explanation of a refusal of these records. It is of the refusal's
/// record, and its texts are lines without a full stop.
fn explained(records: &[u8], refused: Refused) -> Explanation {
    let explanation = explain(records, refused);
    assert_eq!(explanation.record as u64, refused.position);
    let message = &explanation.message;
    assert!(message.starts_with(|c: char| c.is_ascii_lowercase()));
    for detail in &explanation.details {
        let known = detail.record.unwrap_or(0) < records.len() / 8;
        assert!(known, "{explanation:?}");
    }
    let texts = explanation.details.iter().map(|detail| &detail.text);
    for text in texts.chain([message]) {
        let line = !text.is_empty() && !text.contains('\n') && !text.ends_with('.');
        assert!(line && text.trim() == text, "{explanation:?}");
    }
    explanation
}

/// What stands after these words in a detail, if one begins with them.
fn told<'a>(explanation: &'a Explanation, words: &str) -> Option<&'a str> {
    let mut texts = explanation.details.iter().map(|detail| &detail.text);
    texts.find_map(|text| text.strip_prefix(words))
}

/// The names of a list of trees.
fn tree_names(list: &str) -> Vec<usize> {
    let names = list.split(", ").filter(|&tree| tree != "none");
    let names = names.map(|tree| tree.strip_prefix("tree ").unwrap().parse().unwrap());
    names.collect()
}

/// Whether a Case or Call is refused because of the tree that it names.
fn is_out_of_turn(explanation: &Explanation) -> bool {
    let messages = [
        "this is not the first of the pending trees",
        "this tree is not pending any more",
    ];
    messages.contains(&explanation.message.as_str())
}

/// The refusal of a text and its explanation. Details have the line of their
/// record after them.
fn told_of(text: &str) -> String {
    let text = read(text.as_bytes()).unwrap();
    let refused = hogvax::check_records(&text.records).unwrap_err();
    let explanation = explained(&text.records, refused);
    let mut lines = format!("{refused}: {}\n", explanation.message);
    for detail in explanation.details {
        let line = match detail.record {
            Some(record) => format!(" (line {})", text.places[record].line),
            None => String::new(),
        };
        lines += &format!("  {}{line}\n", detail.text);
    }
    lines
}

/// A text of one function with these records, a line each.
fn function(gives: &str, records: &str) -> String {
    let records = records.replace(", ", "\n");
    format!("function 0 takes tree 0 gives {gives}\n{records}\n")
}
