use std::collections::BTreeSet;

use super::*;
use crate::machine::{instruction_at, FILLER, INSTRUCTION_BYTES};
use crate::program::{lay_out, BLOCK_BYTES};

mod generated;

#[test]
fn known_files() {
    for known in known::all() {
        assert_eq!(translate(&known.file), known.answer, "{}", known.name);
    }
}

#[test]
fn known_files_have_names_of_their_own() {
    let mut names = BTreeSet::new();
    for known in known::all() {
        assert!(names.insert(known.name), "{}", known.name);
    }
}

#[test]
fn known_files_are_refused_by_every_number() {
    let refusals = known::all()
        .into_iter()
        .filter_map(|known| known.answer.err());
    let numbers: BTreeSet<u8> = refusals.map(|refusal| refusal.number).collect();
    assert_eq!(numbers, (1..=12).collect());
}

#[test]
fn known_codes_have_every_opcode() {
    let mut opcodes = BTreeSet::new();
    for code in known::all()
        .into_iter()
        .filter_map(|known| known.answer.ok())
    {
        opcodes.extend(code.chunks(INSTRUCTION_BYTES).map(|one| one[0]));
    }
    assert_eq!(opcodes, (0..=13).collect());
}

/// The longest has two instructions for each of 1,024 nodes.
#[test]
fn known_codes_lengths() {
    let codes = known::all()
        .into_iter()
        .filter_map(|known| known.answer.ok());
    let lengths: BTreeSet<usize> = codes.map(|code| code.len() / INSTRUCTION_BYTES).collect();
    assert_eq!(lengths.first(), Some(&2));
    assert_eq!(lengths.last(), Some(&2_048));
}

/// A buffer as long as the code, longer ones, and each shorter one.
#[test]
fn known_files_into_buffers() {
    for known in known::all() {
        let Ok(code) = known.answer else {
            into_any_buffer(&known.file, known.answer.unwrap_err());
            continue;
        };
        for length in [code.len(), code.len() + 1, code.len() + 100] {
            let mut buffer = vec![FILLER; length];
            assert_eq!(translate_into(&known.file, &mut buffer), Ok(code.len()));
            assert_eq!(buffer[..code.len()], code);
            assert!(buffer[code.len()..].iter().all(|&byte| byte == FILLER));
        }
        let too_short = Refusal {
            number: 13,
            position: 0,
        };
        for length in [0, 7, 8, code.len() / 2, code.len() - 8, code.len() - 1] {
            let mut buffer = vec![FILLER; length];
            assert_eq!(translate_into(&known.file, &mut buffer), Err(too_short));
            assert!(buffer.iter().all(|&byte| byte == FILLER));
        }
    }
}

/// The refusal whatever the length, and the buffer untouched.
fn into_any_buffer(file: &[u8], refusal: Refusal) {
    for length in [0, 8, 40_000] {
        let mut buffer = vec![FILLER; length];
        assert_eq!(translate_into(file, &mut buffer), Err(refusal));
        assert!(buffer.iter().all(|&byte| byte == FILLER));
    }
}

#[test]
fn known_listings() {
    for (file, text) in known::listings() {
        assert_eq!(listing(&file), text);
    }
}

/// Every line has the fields of its instruction, a refused file one line.
#[test]
fn listings_of_known_files() {
    for known in known::all() {
        let text = listing(&known.file);
        assert!(text.ends_with('\n'));
        let mut lines = text.lines();
        let heading = lines.next().expect("a heading");
        match known.answer {
            Err(Refusal { number, position }) => {
                assert_eq!(heading, format!("refused {number} {position}"));
                assert_eq!(lines.next(), None);
            }
            Ok(code) => {
                assert_eq!(heading, format!("code {}", code.len() / 8));
                let listed: Vec<&str> = lines.collect();
                assert_eq!(listed.len(), code.len() / 8, "{}", known.name);
                let addressed = listed.iter().enumerate();
                addressed.for_each(|(address, line)| has_the_fields(line, &code, address));
            }
        }
    }
}

fn has_the_fields(line: &str, code: &[u8], address: usize) {
    let instruction = instruction_at(code, address).expect("an instruction");
    let fields: Vec<i64> = line.split(' ').map(|word| word.parse().unwrap()).collect();
    let expected = [
        address as i64,
        instruction.opcode.into(),
        instruction.byte1.into(),
        instruction.operand.into(),
        (instruction.number as i32).into(),
    ];
    assert_eq!(fields, expected);
}

/// "1 length is not 1 to 17 whole blocks", however long the input is.
#[test]
fn long_inputs_are_refused() {
    let text = "number: Call 0 on 0";
    let file = lay_out(&crate::order::known::text::program(text).records());
    for length in [
        0,
        1,
        511,
        513,
        17 * BLOCK_BYTES + 1,
        18 * BLOCK_BYTES,
        100_000,
    ] {
        let input: Vec<u8> = file.iter().copied().cycle().take(length).collect();
        assert_eq!(listing(&input), "refused 1 0\n");
    }
}
