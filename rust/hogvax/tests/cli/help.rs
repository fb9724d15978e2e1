//! `help`: the verbs, what is said of each, and its example.

use super::*;

/// All verbs, as they are listed.
pub const VERBS: [&str; 15] = [
    "tree", "assemble", "show", "pack", "unpack", "check", "listing", "perform", "run", "source",
    "newick", "tokens", "draw", "why", "help",
];

#[test]
fn help_lists_the_verbs() {
    let text = printed(run(&["help"]));
    let lines = text.lines().filter_map(|line| line.strip_prefix("  "));
    let verbs: Vec<&str> = lines.map(|line| line.split(' ').next().unwrap()).collect();
    assert_eq!(verbs, VERBS);
    for words in [&[][..], &["--help"], &["-h"]] {
        assert_eq!(printed(run(words)), text);
    }
}

#[test]
fn help_describes_each_verb_with_an_example() {
    for verb in VERBS {
        let text = printed(run(&["help", verb]));
        assert!(text.starts_with(&format!("hogvax {verb} ")), "{text}");
        assert!(text.contains("\nExample:\n  $ ./hogvax "), "{text}");
        assert_eq!(printed(run(&[verb, "--help"])), text);
        assert_eq!(printed(run(&[verb, "-h"])), text);
    }
}

/// The words of the example after `./hogvax`, and what is printed.
fn example(verb: &str) -> (Vec<String>, String) {
    let text = printed(run(&["help", verb]));
    let (_, example) = text.split_once("\nExample:\n  $ ./hogvax ").unwrap();
    let (words, lines) = example.split_once('\n').unwrap();
    let word = |word: &str| match word.strip_prefix("samples/") {
        Some(name) => sample(name),
        None => word.to_owned(),
    };
    // The lines of an example are indented by two blanks.
    let lines = lines.split_inclusive('\n');
    let line = |line| str::strip_prefix(line, "  ").unwrap_or(line);
    (
        words.split(' ').map(word).collect(),
        lines.map(line).collect(),
    )
}

/// What an example shows, and the files that it makes.
#[test]
fn the_examples_are_true() {
    let folder = folder("examples");
    for verb in VERBS {
        let (words, lines) = example(verb);
        let words: Vec<&str> = words.iter().map(String::as_str).collect();
        let output = command(&words).current_dir(&folder).output().unwrap();
        assert_eq!(output.status.code(), Some(0));
        if !lines.is_empty() {
            assert_eq!([output.stdout, output.stderr].concat(), lines.as_bytes());
        }
    }
    for name in ["grow.program", "grow.records"] {
        let made = fs::read(folder.join(name)).unwrap();
        let shipped = fs::read(sample(&format!("programs/{name}"))).unwrap();
        assert_eq!(made, shipped, "{name}");
    }
}
