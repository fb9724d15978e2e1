//! `examples/view.c`, linked with the view library alone and with the whole library:
//! what it prints is what the reference finds.

use std::collections::BTreeMap;
use std::process::{Command, Output};
use std::sync::OnceLock;

use reference::generate::{damaged, left_caterpillar, right_caterpillar};
use reference::{tree_measures, Measures, Random, DEPTH_LIMIT};

use super::compiler::repository;
use super::*;

/// The example with the view library, and with the whole library, compiled once.
fn programs() -> &'static [PathBuf; 2] {
    static PROGRAMS: OnceLock<[PathBuf; 2]> = OnceLock::new();
    PROGRAMS.get_or_init(|| {
        let source = repository("examples/view.c");
        let view = linked(&source, &archives::view(), "view");
        [view, linked(&source, &archives::whole(), "view-whole")]
    })
}

fn run(program: &Path, words: &[&Path]) -> Output {
    Command::new(program).args(words).output().unwrap()
}

/// What it prints for these tokens, and the number of the refusal, 0 if there is none.
fn expected(tokens: &[u8]) -> (String, u8) {
    let (mut text, mut offset) = (String::new(), 0);
    while offset < tokens.len() {
        match tree_measures(&tokens[offset..]) {
            Ok(Measures { bytes, tips, depth }) => {
                text += &format!("offset {offset} bytes {bytes} tips {tips} depth {depth}\n");
                offset += bytes;
            }
            Err(refusal) => {
                text += &format!("refused {} {}\n", refusal.number, offset + refusal.position);
                return (text, refusal.number);
            }
        }
    }
    (text, 0)
}

/// Both print what is expected for these tokens: the number of the refusal.
fn assert_printed(name: &str, tokens: &[u8]) -> u8 {
    let file = made(&format!("{name}.tokens"));
    fs::write(&file, tokens).unwrap();
    let (text, number) = expected(tokens);
    for program in programs() {
        let output = run(program, &[&file]);
        assert_eq!(String::from_utf8_lossy(&output.stdout), text, "{program:?}");
        assert_eq!(output.status.code(), Some(i32::from(number != 0)));
        assert!(output.stderr.is_empty(), "{output:?}");
    }
    number
}

/// All files of tokens of the samples.
fn samples() -> Vec<Vec<u8>> {
    let folders = ["samples", "samples/trees"].map(repository);
    let entries = folders
        .iter()
        .flat_map(|folder| fs::read_dir(folder).unwrap());
    let paths = entries.map(|entry| entry.unwrap().path());
    let mut paths: Vec<PathBuf> = paths
        .filter(|path| path.extension().is_some_and(|end| end == "tokens"))
        .collect();
    paths.sort();
    paths.iter().map(|path| fs::read(path).unwrap()).collect()
}

#[test]
fn the_example_finds_the_trees_of_the_samples() {
    let samples = samples();
    assert!(samples.len() >= 8, "{}", samples.len());
    for (number, tokens) in samples.iter().enumerate() {
        assert_eq!(assert_printed(&format!("sample-{number}"), tokens), 0);
    }
    let all = samples.concat();
    assert_eq!(assert_printed("all-samples", &all), 0);
    assert!(expected(&all).0.lines().count() > 1000);
}

/// Files as long as the buffer, a byte shorter and longer, and some of its lengths
/// later; and files that are no trees.
#[test]
fn the_example_reads_files_of_any_length() {
    let leaves = [1, 5, 0, 0, 0].repeat(200_000);
    for length in [0, 1, 5, 65_535, 65_536, 65_537, 131_072, 131_075, 1_000_000] {
        let number = assert_printed("length", &leaves[..length]);
        assert_eq!(number, if length % 5 == 0 { 0 } else { 15 });
    }
    let code = fs::read(repository("samples/code/sum.code")).unwrap();
    assert_eq!(assert_printed("code", &code), 16);
}

/// Samples cut and changed, and trees deeper than the limit, after others: every
/// refusal is seen.
#[test]
fn the_example_tells_where_a_file_is_damaged() {
    let (mut random, mut seen) = (Random::new(41), BTreeMap::new());
    let short: Vec<Vec<u8>> = samples()
        .into_iter()
        .filter(|one| one.len() < 2_000)
        .collect();
    for _ in 0..150 {
        let whole = &short[random.below(short.len())];
        let tokens = [&whole[..], &damaged(&mut random, whole)].concat();
        *seen.entry(assert_printed("damaged", &tokens)).or_insert(0) += 1;
    }
    for make in [left_caterpillar, right_caterpillar] {
        for depth in [DEPTH_LIMIT, DEPTH_LIMIT + 1] {
            let tokens = [short[0].clone(), make(&mut random, depth).tokens()].concat();
            *seen.entry(assert_printed("deep", &tokens)).or_insert(0) += 1;
        }
    }
    let often = [0, 15, 16, 20].map(|number| seen.remove(&number).unwrap_or(0));
    assert!(
        often.iter().all(|&count| count >= 2) && seen.is_empty(),
        "{often:?} {seen:?}"
    );
}

#[test]
fn the_example_tells_of_a_file_that_cannot_be_read() {
    for program in programs() {
        for name in ["no-such-file", "."] {
            let output = run(program, &[Path::new(name)]);
            assert_eq!(output.status.code(), Some(2));
            assert!(String::from_utf8_lossy(&output.stderr).contains(name));
            assert!(output.stdout.is_empty());
        }
        let words = [Path::new("one"), Path::new("two")];
        for words in [&words[..0], &words] {
            assert_eq!(run(program, words).status.code(), Some(2));
        }
    }
}

/// As the comment at its head says, and in every C since 1999.
#[test]
fn the_example_is_built_as_it_says() {
    let text = fs::read_to_string(repository("examples/view.c")).unwrap();
    let built = "cc -std=c99 -Iinclude examples/view.c target/staticlib/libhogvax_view.a -o view";
    assert!(text.contains(&format!("\n *     {built}\n")));
    for standard in ["c99", "c11", "gnu99", "gnu11"] {
        let mut command = compiler("cc", standard);
        succeed(
            command
                .arg("-fsyntax-only")
                .arg(repository("examples/view.c")),
        );
    }
}
