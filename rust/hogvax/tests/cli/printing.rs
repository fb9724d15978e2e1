//! What the verbs have in common that print what they say of one file.

use reference::{generate, Random};

use super::*;

/// Those that take a program.
const OF_PROGRAMS: [&str; 3] = ["check", "listing", "show"];

/// Those that take tokens.
const OF_TOKENS: [&str; 3] = ["tree", "newick", "draw"];

/// Each of them, with a sample that it takes.
fn all() -> Vec<(&'static str, &'static str)> {
    let of_programs = OF_PROGRAMS.map(|verb| (verb, "programs/grow.program"));
    let of_tokens = OF_TOKENS.map(|verb| (verb, "clades.tokens"));
    [of_programs, of_tokens].concat()
}

#[test]
fn long_programs_are_refused() {
    for length in [8_705, 9_216, 20_000_000] {
        let mut input = bytes("programs/grow.program");
        input.resize(length, 0);
        for verb in OF_PROGRAMS {
            assert_says(&run_on(&[verb], &input), 1, "refused 1 0\n");
        }
    }
}

/// No more is read than the answer needs.
#[cfg(target_os = "linux")]
#[test]
fn endless_inputs_are_refused() {
    let programs = OF_PROGRAMS.map(|verb| (verb, "refused 1 0\n"));
    let tokens = OF_TOKENS.map(|verb| (verb, "refused 16 0\n"));
    for (verb, line) in [programs, tokens].concat() {
        assert_says(&run(&[verb, "/dev/zero"]), 1, line);
        let input = File::open("/dev/zero").unwrap();
        let output = command(&[verb]).stdin(input).output().unwrap();
        assert_says(&output, 1, line);
    }
}

#[test]
fn files_that_cannot_be_read_are_told() {
    let folder = env!("CARGO_MANIFEST_DIR");
    for (verb, _) in all() {
        for file in ["no-such-file", folder] {
            let message = trouble(run(&[verb, file]));
            let told = format!("hogvax: {file}: ");
            assert!(message.starts_with(&told), "{message}");
        }
        let input = File::open(folder).unwrap();
        let message = trouble(command(&[verb]).stdin(input).output().unwrap());
        assert!(message.contains("standard input"), "{message}");
    }
}

/// Before a drawing begins, and while it is written.
#[test]
fn a_closed_pipe_is_told() {
    for (verb, name) in all() {
        assert_closed_pipe_is_told(&[verb], &bytes(name));
    }
    let tree = generate::balanced(&mut Random::new(474), 1 << 12).tokens();
    assert_closed_pipe_is_told(&["draw"], &tree);
}

#[cfg(target_os = "linux")]
#[test]
fn a_full_device_is_told() {
    for (verb, name) in all() {
        let full = File::options().write(true).open("/dev/full").unwrap();
        let output = command(&[verb, &sample(name)]).stdout(full).output();
        assert!(trouble(output.unwrap()).contains("standard output"));
    }
}
