//! Texts damaged at random or cut short: whatever they are, they are read or
//! reported.

use hogvax::assembly::{self, read};
use hogvax::Place;

use super::layouts::Writer;
use super::*;

/// A part of each message.
const MESSAGES: [&str; 17] = [
    "a text begins with a function line",
    "no kind of record is called",
    "is meant?",
    "stands alone",
    "the line ends too early",
    "stands where",
    "is too much",
    "the name of a number is 0 to 255",
    "the name of a tree is 0 to 255",
    "a function is 0 to 65535",
    "a number is -2147483648 to 2147483647",
    "functions count from 0",
    "which is tree 0",
    "number parameters count from 0",
    "the number given is",
    "a number without a record",
    "no character of UTF-8",
];

const WORDS: [&str; 18] = [
    "function",
    "takes",
    "tree",
    "number",
    "gives",
    "on",
    ",",
    "Case",
    "case",
    "Add",
    "Cal",
    "0",
    "1",
    "256",
    "65536",
    "-2147483649",
    "x",
    "#",
];

/// The text with a word or line changed, lost, doubled or moved; or a byte.
fn damaged(random: &mut Random, text: &str) -> Vec<u8> {
    let mut lines: Vec<&str> = text.split('\n').collect();
    let (one, other) = (random.below(lines.len()), random.below(lines.len()));
    let mut words: Vec<&str> = lines[one].split(' ').collect();
    let place = random.below(words.len());
    match random.below(7) {
        0 => lines.swap(one, other),
        1 => drop(lines.remove(one)),
        2 => lines.insert(other, lines[one]),
        3 => {
            let mut bytes = text.as_bytes().to_vec();
            let place = random.below(bytes.len());
            bytes[place] = 1 + random.below(255) as u8;
            return bytes;
        }
        change => {
            match change {
                4 => words[place] = random.pick(&WORDS),
                5 => words.insert(place, random.pick(&WORDS)),
                _ => drop(words.remove(place)),
            }
            let line = words.join(" ");
            lines[one] = &line;
            return lines.join("\n").into_bytes();
        }
    }
    lines.join("\n").into_bytes()
}

/// What the reader makes of any bytes: a fault that is in the text, or a place
/// for each record, whatever these are.
fn assert_answered(bytes: &[u8], seen: &mut [usize; MESSAGES.len()]) -> bool {
    let lines = 1 + bytes.iter().filter(|&&byte| byte == b'\n').count();
    let in_text = |place: Place| place.line <= lines && place.column <= 1 + bytes.len();
    match read(bytes) {
        Ok(text) => {
            assert_eq!(text.records.len(), 8 * text.places.len());
            assert!(text.places.iter().all(|&place| in_text(place)));
            if let Err(refused) = hogvax::check_records(&text.records) {
                let explanation = assembly::explain(&text.records, refused);
                assert!(explanation.record < text.places.len());
            }
            true
        }
        Err(fault) => {
            assert!(in_text(fault.place), "{fault}");
            assert_eq!(fault.message.lines().count(), 1);
            let told = MESSAGES.map(|part| usize::from(fault.message.contains(part)));
            assert!(told.contains(&1), "{fault}");
            for (count, told) in seen.iter_mut().zip(told) {
                *count += told;
            }
            false
        }
    }
}

#[test]
fn damaged_texts_are_read_or_told() {
    let (mut random, mut writer) = (Random::new(310), Writer::new(311));
    let (mut seen, mut passed) = ([0; MESSAGES.len()], 0);
    for _ in 0..600 {
        let functions = 1 + random.below(3);
        let nodes = functions + random.below(20);
        let program = programs::program(&mut random, functions, nodes);
        let text = writer.write(&program).text;
        for _ in 0..12 {
            let damaged = damaged(&mut random, &text);
            passed += usize::from(assert_answered(&damaged, &mut seen));
        }
    }
    assert!(passed > 100, "{passed}");
    let told = MESSAGES.iter().zip(seen);
    let unseen: Vec<_> = told.filter(|(_, count)| *count == 0).collect();
    assert!(unseen.is_empty(), "{unseen:?}");
}

/// Every beginning of a text.
#[test]
fn texts_that_end_anywhere_are_read_or_told() {
    let mut seen = [0; MESSAGES.len()];
    let marked = format!("\u{feff}{DEPTH}  # \u{201e}\u{6f22}\u{201c}\n");
    let lengths = 0..=marked.len();
    let passed = lengths.filter(|&length| assert_answered(&marked.as_bytes()[..length], &mut seen));
    assert!(passed.count() > 100);
    assert!(seen[4] > 10 && seen[16] > 2, "{seen:?}");
}
