//! What `run` and `source` have in common: numbers that a program gives,
//! programs that are refused, the space that grows, and known runs.

use reference::generate::balanced;
use reference::{read_file, Random, RunCase, SourceCase};

use super::run_verbs::{small, Verb, OF_PROGRAMS, RUN, SOURCE};
use super::*;

fn sum() -> String {
    sample("programs/sum.program")
}

/// What is said of Sum on two leaves.
fn summed(verb: &Verb, number: &str) -> String {
    let (counts, measures) = match verb.name {
        "run" => ("units 17 read 11", ""),
        _ => ("begun 8", " tips 2 depth 1"),
    };
    format!("ended {counts} written 0 number {number}{measures}\n")
}

// Numbers

#[test]
fn a_number_goes_out_as_text() {
    for (left, right, number) in [
        (5, 7, "12"),
        (0, 0, "0"),
        (i32::MAX - 1, 1, "2147483647"),
        (i32::MIN + 1, -1, "-2147483648"),
        (i32::MAX, i32::MIN, "-1"),
        (-2, -1, "-3"),
    ] {
        for verb in OF_PROGRAMS {
            let output = run_on(&[verb.name, &sum()], &two_leaves(left, right));
            let (data, line) = (format!("{number}\n"), summed(&verb, number));
            assert_gives(&output, 0, data.as_bytes(), &line);
        }
    }
}

#[test]
fn a_number_goes_into_the_file_of_out() {
    for verb in OF_PROGRAMS {
        let out = verb.folder("number").join("number");
        let path = out.to_str().unwrap();
        fs::write(path, "a longer text than the number").unwrap();
        let output = run(&[verb.name, &sum(), &small(), "--out", path]);
        assert_gives(&output, 0, &[], &summed(&verb, "12"));
        assert_eq!(fs::read(path).unwrap(), b"12\n");
    }
}

/// A number needs no space.
#[test]
fn a_number_is_given_without_space() {
    for verb in OF_PROGRAMS {
        let output = run(&[verb.name, &sum(), &small(), "--space", "0"]);
        assert_gives(&output, 0, b"12\n", &summed(&verb, "12"));
    }
}

// Programs that are refused

/// Programs that no run begins, each with its refusal.
fn refused_programs() -> Vec<(Vec<u8>, usize, usize)> {
    let (grow, records) = (
        bytes("programs/grow.program"),
        bytes("programs/grow.records"),
    );
    let record = |place, byte| lay_out(&with(&records, place, byte));
    let one = || Expr::constant(1);
    let lets = (0..16).fold(one(), |body, _| Expr::let_in(one(), body));
    vec![
        (vec![0; 511], 1, 0),
        (with(&grow, 20, 9), 2, 0),
        (reference::lay_out_runs(&[&[]]), 3, 0),
        (record(0, 2), 4, 0),
        (record(8, 2), 5, 1),
        (record(16, 9), 6, 2),
        (record(16, 5), 7, 2),
        (record(8, 0), 8, 3),
        (record(41, 1), 9, 5),
        (file(false, lets), 10, 34),
        // Records are no program file.
        (records, 1, 0),
    ]
}

/// Before the run, with 0 in every count, whatever the input and the fuel;
/// with --partial, too, there is no data.
#[test]
fn programs_that_are_refused_are_told() {
    for (program, number, position) in refused_programs() {
        for verb in OF_PROGRAMS {
            let line = verb.refused(number, position);
            assert_gives(&verb.run_first(&program, &[]), 1, &[], &line);
            let output = verb.run_first(&program, &["--fuel", "0", "--space", "0"]);
            assert_gives(&output, 1, &[], &line);
        }
        let output = RUN.run_first(&program, &["--fuel", "0", "--partial"]);
        assert_gives(&output, 1, &[], &RUN.refused(number, position));
    }
}

#[test]
fn long_programs_are_refused() {
    for length in [8_705, 9_216, 20_000_000] {
        let mut program = bytes("programs/grow.program");
        program.resize(length, 0);
        for verb in OF_PROGRAMS {
            let output = verb.run_first(&program, &[]);
            assert_gives(&output, 1, &[], &verb.refused(1, 0));
        }
    }
}

/// No more is read than the answer needs.
#[cfg(target_os = "linux")]
#[test]
fn endless_programs_are_refused() {
    for verb in OF_PROGRAMS {
        let output = run(&[verb.name, "/dev/zero", &small()]);
        assert_gives(&output, 1, &[], &verb.refused(1, 0));
    }
}

// Fuel and space

#[test]
fn fuel_may_be_left_out() {
    for verb in OF_PROGRAMS {
        verb.assert_grown(&verb.run_grow(&[]));
    }
}

/// The file of a program that gives so many leaves for each leaf.
fn manifold(leaves: usize) -> Vec<u8> {
    let leaf = || Expr::leaf(Expr::var(0));
    let many = (1..leaves).fold(leaf(), |tree, _| Expr::node(leaf(), tree));
    file(true, Expr::case(0, many, Expr::node(call(1), call(2))))
}

/// What the program gives on these tokens, in an output of so many bytes, and
/// the line that is said of it.
fn reference_data(verb: &Verb, program: &[u8], tokens: &[u8], output: usize) -> (Vec<u8>, String) {
    let (fuel, code) = (u64::MAX, hogvax::LONGEST_CODE);
    let (written, mut data, line) = match verb.name {
        "run" => {
            let (ran, data, _) = RunCase::new(program, tokens, fuel, output, code).perform();
            (ran.written, data, line_of(&ran))
        }
        _ => {
            let (sourced, data) = SourceCase::new(program, tokens, fuel, output).perform();
            (sourced.written, data, format!("{sourced}\n"))
        }
    };
    data.truncate(written);
    (data, line)
}

/// 6 MB of output for 240 KB of input, which begin with 1 MiB.
#[test]
fn space_grows_where_it_is_needed() {
    let (program, tokens) = (
        manifold(25),
        balanced(&mut Random::new(191), 40_000).tokens(),
    );
    for verb in OF_PROGRAMS {
        let full = match verb.name {
            "run" => &b"refused 17 "[..],
            _ => b"refused 17 0 ",
        };
        let (data, line) = reference_data(&verb, &program, &tokens, 10_000_000);
        assert_eq!(data.len(), 6 * 25 * 40_000 - 1);
        let path = verb.folder("manifold").join("program");
        fs::write(&path, &program).unwrap();
        let words = [verb.name, path.to_str().unwrap()];
        assert_gives(&run_on(&words, &tokens), 0, &data, &line);
        for option in ["--most-space", "--space"] {
            let with = |bytes: usize| {
                let bytes = bytes.to_string();
                run_on(&[&words[..], &[option, &bytes]].concat(), &tokens)
            };
            assert_gives(&with(data.len()), 0, &data, &line);
            let output = with(data.len() - 1);
            assert_eq!(output.status.code(), Some(1));
            assert!(output.stdout.is_empty() && output.stderr.starts_with(full));
        }
    }
}

// Known runs

/// A run that the reference knows.
struct Known {
    file: Vec<u8>,
    input: Vec<u8>,
    fuel: u64,
    space: usize,
    /// The refusal's number, 0 if the run ended.
    refused: usize,
    number: i32,
    /// The bytes written.
    written: Vec<u8>,
    /// What is said of it.
    line: String,
}

/// What is said of a stream run.
fn line_of(ran: &reference::Ran) -> String {
    let start = match ran.refusal {
        None => "ended".to_owned(),
        Some(refusal) => format!("refused {} {}", refusal.number, refusal.position),
    };
    let (units, read, written, number) = (ran.units, ran.read, ran.written, ran.number);
    format!("{start} units {units} read {read} written {written} number {number}\n")
}

fn known_stream_run(known: reference::run::known::Known) -> Known {
    let (case, ran) = (known.case, known.answer);
    Known {
        file: case.file,
        input: case.input,
        fuel: case.fuel,
        space: case.output,
        refused: ran.refusal.map_or(0, |refusal| refusal.number.into()),
        number: ran.number,
        written: known.output[..ran.written].to_vec(),
        line: line_of(&ran),
    }
}

fn known_source_run(known: reference::source::known::Known) -> Known {
    let (case, sourced) = (known.case, known.answer);
    Known {
        file: case.file,
        input: case.input,
        fuel: case.fuel,
        space: case.output,
        refused: sourced.refused.map_or(0, |refusal| refusal.number.into()),
        number: sourced.number,
        written: known.output[..sourced.written].to_vec(),
        line: format!("{sourced}\n"),
    }
}

impl Known {
    /// The data that goes out; with --partial, also where the run is refused.
    fn data(&self) -> Vec<u8> {
        if self.refused == 0 && gives_a_number(&self.file) {
            format!("{}\n", self.number).into_bytes()
        } else {
            self.written.clone()
        }
    }
}

fn gives_a_number(file: &[u8]) -> bool {
    let records = read_file(file).unwrap();
    !Program::from_records(&records).unwrap().functions[0].tree_valued
}

/// As it is with [`assert_gives`], but more lines follow: which sum it is.
fn assert_gives_more(output: &Output, status: i32, data: &[u8], line: &str) {
    let said = String::from_utf8_lossy(&output.stderr);
    assert!(said.starts_with(line) && said.len() > line.len(), "{said}");
    assert!(output.stdout == data, "not the data: {line}");
    assert_eq!(output.status.code(), Some(status));
}

/// Tries the reference's known runs: the numbers that were given. Those that
/// lend too little can't be made here.
fn assert_told(verb: &Verb, options: &[&str], all: Vec<Known>) -> Vec<usize> {
    let program = verb.folder("known").join("program");
    let program = program.to_str().unwrap();
    let mut seen = Vec::new();
    for known in all.iter().filter(|known| known.refused != 13) {
        fs::write(program, &known.file).unwrap();
        let (fuel, space) = (known.fuel.to_string(), known.space.to_string());
        let words = [verb.name, program, "--fuel", &fuel, "--space", &space];
        let output = run_on(&[&words[..], options].concat(), &known.input);
        let status = i32::from(known.refused != 0);
        match known.refused {
            21 => assert_gives_more(&output, status, &known.data(), &known.line),
            _ => assert_gives(&output, status, &known.data(), &known.line),
        }
        seen.push(known.refused);
    }
    seen.sort_unstable();
    seen.dedup();
    seen
}

#[test]
fn known_runs_are_told() {
    let all = reference::run::known::all().into_iter();
    let seen = assert_told(&RUN, &["--partial"], all.map(known_stream_run).collect());
    let expected = (0..=21).filter(|number| ![13, 19, 20].contains(number));
    assert!(seen.iter().copied().eq(expected), "{seen:?}");
}

#[test]
fn known_source_runs_are_told() {
    let all = reference::source::known::all().into_iter();
    let seen = assert_told(&SOURCE, &[], all.map(known_source_run).collect());
    let expected = (0..=21).filter(|number| ![11, 12, 13, 19].contains(number));
    assert!(seen.iter().copied().eq(expected), "{seen:?}");
}
