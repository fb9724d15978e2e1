//! `examples/run.c` and `examples/source.c` on the samples.

use std::sync::OnceLock;

use super::*;

/// An example of the repository.
struct Example {
    name: &'static str,
    /// What it prints for a program and tokens, and its exit status.
    expected: fn(&[u8], &[u8]) -> (String, i32),
    /// What the exit status of so many samples at least is, 0 or 1.
    ended: usize,
    refused: usize,
}

const RUN: Example = Example {
    name: "run",
    expected: runs,
    ended: 10,
    refused: 10,
};

const SOURCE: Example = Example {
    name: "source",
    expected: source,
    ended: 20,
    refused: 5,
};

const BOTH: [Example; 2] = [RUN, SOURCE];

impl Example {
    /// The example, compiled once.
    fn program(&self) -> &'static Path {
        static RUN_PROGRAM: OnceLock<PathBuf> = OnceLock::new();
        static SOURCE_PROGRAM: OnceLock<PathBuf> = OnceLock::new();
        let program = match self.name {
            "run" => &RUN_PROGRAM,
            _ => &SOURCE_PROGRAM,
        };
        program.get_or_init(|| {
            let file = format!("examples/{}.c", self.name);
            build(&repository(&file), self.name)
        })
    }

    fn run(&self, program: &Path, tokens: &Path) -> Output {
        let mut command = Command::new(self.program());
        let output = command.arg(program).arg(tokens).output();
        output.unwrap()
    }

    /// It prints this for a program and tokens.
    fn assert_prints(&self, program: &Path, tokens: &Path, text: &str, status: i32) {
        let output = self.run(program, tokens);
        assert_eq!(String::from_utf8_lossy(&output.stdout), text, "{program:?}");
        assert_eq!(output.status.code(), Some(status), "{program:?}");
    }
}

/// The bytes as the examples print them.
fn printed(bytes: &[u8]) -> String {
    let bytes: Vec<String> = bytes.iter().map(|byte| format!("{byte:02x}")).collect();
    match bytes.len() {
        0 => String::new(),
        _ => bytes.join(" ") + "\n",
    }
}

/// A run for each tree, until one is refused.
fn runs(program: &[u8], tokens: &[u8]) -> (String, i32) {
    let (mut text, mut rest) = (String::new(), tokens);
    loop {
        let mut output = [0; 1_000];
        let ran = hogvax::run(program, rest, u64::MAX, &mut output);
        text += &format!("{ran}\n{}", printed(&output[..ran.written]));
        if ran.refused.is_some() {
            return (text, 1);
        }
        rest = &rest[ran.read..];
        if rest.is_empty() {
            return (text, 0);
        }
    }
}

/// The source run on the first tree.
fn source(program: &[u8], tokens: &[u8]) -> (String, i32) {
    let mut output = [0; 1_000];
    let sourced = hogvax::source(program, tokens, 1_000_000_000, &mut output);
    let text = format!("{sourced}\n{}", printed(&output[..sourced.written]));
    (text, i32::from(sourced.refused.is_some()))
}

/// The programs of the samples, with names.
fn programs() -> Vec<PathBuf> {
    let entries = fs::read_dir(repository("samples/programs")).unwrap();
    let paths = entries.map(|entry| entry.unwrap().path());
    let mut programs: Vec<PathBuf> = paths
        .filter(|path| path.extension().is_some_and(|end| end == "program"))
        .collect();
    programs.sort();
    programs
}

/// Tokens with names: trees, and bytes that are none.
fn tokens() -> Vec<(&'static str, Vec<u8>)> {
    let small = fs::read(repository("samples/small.tokens")).unwrap();
    let clades = fs::read(repository("samples/clades.tokens")).unwrap();
    let minus_3 = [1, 0xfd, 0xff, 0xff, 0xff];
    vec![
        ("one", small.clone()),
        ("three", [&small[..], &minus_3, &small].concat()),
        ("nine leaves", clades),
        ("negative", minus_3.to_vec()),
        ("none", vec![]),
        ("broken", [&small[..], &small[..10]].concat()),
    ]
}

#[test]
fn the_examples_run_the_samples() {
    for example in BOTH {
        let mut statuses = [0; 2];
        for (name, tokens) in tokens() {
            let file = made(&format!("{name}-{}.tokens", example.name));
            fs::write(&file, &tokens).unwrap();
            for program in programs() {
                let bytes = fs::read(&program).unwrap();
                let (text, status) = (example.expected)(&bytes, &tokens);
                example.assert_prints(&program, &file, &text, status);
                statuses[status as usize] += 1;
            }
        }
        let [ended, refused] = statuses;
        assert!(ended >= example.ended, "{}: {ended}", example.name);
        assert!(refused >= example.refused, "{}: {refused}", example.name);
    }
}

/// Document 01: "Grow on T, fuel 25: ends, labels 6 and 8, units 25." "Source
/// run: fuel 14 ends".
#[test]
fn the_examples_run_grow_on_t() {
    let program = repository("samples/programs/grow.program");
    let tokens = repository("samples/small.tokens");
    let grown = "02 01 06 00 00 00 01 08 00 00 00\n";
    for (example, line) in [
        (RUN, "ended units 25 read 11 written 11 number 0\n"),
        (
            SOURCE,
            "ended begun 14 written 11 number 0 tips 2 depth 1\n",
        ),
    ] {
        let text = [line, grown].concat();
        example.assert_prints(&program, &tokens, &text, 0);
    }
}

/// Document 01: "Its source run on T gives labels 7, 5."
#[test]
fn the_source_example_runs_a_program_out_of_order() {
    let program = repository("samples/programs/swap.program");
    let tokens = repository("samples/small.tokens");
    let refused = "refused 11 6 units 0 read 0 written 0 number 0\n";
    RUN.assert_prints(&program, &tokens, refused, 1);
    let text = "ended begun 10 written 11 number 0 tips 2 depth 1\n\
        02 01 07 00 00 00 01 05 00 00 00\n";
    SOURCE.assert_prints(&program, &tokens, text, 0);
}

#[test]
fn the_examples_tell_of_files_that_cannot_be_read() {
    let program = repository("samples/programs/grow.program");
    for example in BOTH {
        let output = example.run(&program, Path::new("no-such-file"));
        assert_eq!(output.status.code(), Some(2));
        assert!(String::from_utf8_lossy(&output.stderr).contains("no-such-file"));
        let output = Command::new(example.program()).output().unwrap();
        assert_eq!(output.status.code(), Some(2));
    }
}
