//! Programs as text, for the verbs that take program files too.

use hogvax::assembly::{self, Numbers, LONGEST_TEXT};
use hogvax::Refused;

use super::run_verbs::{GROWN, OF_PROGRAMS, RUN};
use super::*;

pub const GROW: &str = "\
# Adds 1 to every label.
function 0 takes tree 0 gives tree
  Case 0
    Leaf
      Add
        Var 0
        Const 1
    Node
      Call 0 on 1
      Call 0 on 2
";

/// The sum of all labels, its last line indented as if it were the part of
/// another record; and what is said of it on standard error.
pub const MISPLACED: &str = "\
function 0 takes tree 0 gives number
  Case 0
    Var 0
    Add
      Call 0 on 1
    Call 0 on 2
";

pub const MISPLACED_NOTICE: &str = "notice: standard input:6:5: \
    the indentation makes this a part of 'Case 0' (line 2), \
    and it is the second number of 'Add' (line 4)\n";

/// The verbs that print their answer on standard output.
const PRINTING: [&str; 3] = ["check", "listing", "show"];

/// What is said on standard error after the line that tells a text's refusal.
pub fn explained(name: &str, text: &str, line: &str) -> String {
    let text = assembly::read(text.as_bytes()).unwrap();
    let numbers: Vec<&str> = line.split_whitespace().skip(1).collect();
    let refused = Refused {
        number: numbers[0].parse().unwrap(),
        position: numbers[1].parse().unwrap(),
    };
    let explanation = assembly::explain(&text.records, refused);
    let number = explanation.record;
    assert_eq!(number as u64, refused.position);
    let record = match text.line(number) {
        Some(line) => format!("'{line}'"),
        None => "the header".to_owned(),
    };
    let (place, message) = (text.places[number], explanation.message);
    let mut lines = format!("{name}:{place}: record {number}, {record}: {message}\n");
    for detail in explanation.details {
        let line = detail.record.map(|record| text.places[record].line);
        let line = line.map_or(String::new(), |line| format!(" (line {line})"));
        lines += &format!("  {}{line}\n", detail.text);
    }
    lines
}

/// A file with this text, in a folder for one test.
pub fn written(folder_name: &str, text: &str) -> String {
    let path = folder(folder_name).join("program.txt");
    fs::write(&path, text).unwrap();
    path.to_str().unwrap().to_owned()
}

// Texts and program files

/// With and without numbers; from a file, and from standard input.
#[test]
fn a_text_is_taken_as_its_program_file_is() {
    let clades = sample("clades.tokens");
    for name in ["depth", "grow", "prune", "sum", "tips"] {
        let program = sample(&format!("programs/{name}.program"));
        let file = fs::read(&program).unwrap();
        for numbers in [Numbers::Shown, Numbers::Bare] {
            let text = assembly::show(&file, numbers).unwrap();
            let path = written("texts-as-files", &text);
            for verb in PRINTING {
                let output = run(&[verb, &program]);
                assert_eq!(run(&[verb, &path]), output);
                assert_eq!(run_on(&[verb, "-"], text.as_bytes()), output);
            }
            for verb in ["run", "source"] {
                let output = run(&[verb, &program, &clades]);
                assert_eq!(run(&[verb, &path, &clades]), output);
                assert_eq!(run_on(&[verb, "-", &clades], text.as_bytes()), output);
            }
        }
    }
}

#[test]
fn a_text_may_have_other_line_ends_marks_and_tabs() {
    let crlf = GROW.replace('\n', "\r\n");
    let marked = format!("\u{feff}{GROW}");
    let tabs = GROW.replace("  ", "\t");
    let cut = GROW.trim_end();
    for text in [&crlf, &marked, &tabs, cut] {
        assert_says(&run_on(&["check"], text.as_bytes()), 0, "passed\n");
        for verb in OF_PROGRAMS {
            let output = verb.run_first(text.as_bytes(), &[]);
            assert_gives(&output, 0, &GROWN, verb.ended);
        }
    }
}

/// A pipe can't be opened twice, so all of a text is read from the first.
#[cfg(target_os = "linux")]
#[test]
fn a_text_may_come_from_a_pipe() {
    let text = format!("{}{GROW}", "# A comment.\n".repeat(10_000));
    let output = run_on(&["check", "/dev/stdin"], text.as_bytes());
    assert_says(&output, 0, "passed\n");
}

// Texts that can't be read

#[test]
fn lines_that_cannot_be_read_are_told() {
    let text = GROW.replace("Var", "Vra");
    let path = written("texts-unread", &text);
    let message = ":6:9: record 5: no kind of record is called 'Vra'\n";
    let (from_file, from_input) = (
        format!("refused {path}{message}"),
        format!("refused standard input{message}"),
    );
    for verb in PRINTING {
        assert_says(&run(&[verb, &path]), 1, &from_file);
        assert_says(&run_on(&[verb], text.as_bytes()), 1, &from_input);
    }
    for verb in OF_PROGRAMS {
        let small = sample("small.tokens");
        let output = run(&[verb.name, &path, &small]);
        assert_gives(&output, 1, &[], &from_file);
        assert_gives(&verb.run_first(text.as_bytes(), &[]), 1, &[], &from_input);
    }
}

#[test]
fn bytes_that_are_no_text_are_told() {
    let line = "refused standard input:2:3: these bytes are no character of UTF-8\n";
    for verb in PRINTING {
        let output = run_on(&[verb], b"# \xe6\xbc\xa2\n# \xff\n");
        assert_says(&output, 1, line);
    }
}

/// The file with the tokens is read all the same, as with a program file.
#[test]
fn files_that_cannot_be_read_come_before_refusals() {
    let path = written("texts-and-no-tokens", "Case 0");
    for verb in OF_PROGRAMS {
        let message = trouble(run(&[verb.name, &path, "no-such-file"]));
        assert!(message.starts_with("hogvax: no-such-file: "), "{message}");
    }
}

// What is a text, and how long it may be

#[test]
fn an_empty_file_is_a_program_file() {
    for verb in PRINTING {
        assert_says(&run_on(&[verb], b""), 1, "refused 1 0\n");
    }
}

/// Wherever it stands, as far as a text is read.
#[test]
fn a_file_with_a_zero_byte_is_a_program_file() {
    let text = format!("{GROW}{}", "# A comment.\n".repeat(10_000));
    for place in [0, 1, 500, 8_703, 8_704, 8_705, 100_000] {
        let damaged = with(text.as_bytes(), place, 0);
        assert_says(&run_on(&["check"], &damaged), 1, "refused 1 0\n");
    }
}

/// The text with a comment after it, so that it has so many bytes.
fn of_length(text: &str, bytes: usize) -> String {
    let comment = "#".repeat(bytes - text.len());
    format!("{text}{comment}")
}

#[test]
fn a_text_has_a_mebibyte() {
    let marked = format!("\u{feff}{GROW}");
    for text in [GROW, &marked] {
        for length in [8_703, 8_704, 8_705, 8_706, LONGEST_TEXT - 1, LONGEST_TEXT] {
            let text = of_length(text, length);
            assert_says(&run_on(&["check"], text.as_bytes()), 0, "passed\n");
        }
    }
}

/// No more is read than the answer needs.
#[test]
fn longer_and_endless_texts_are_refused() {
    let column = LONGEST_TEXT - GROW.len() + 1;
    let told = "the text goes on here, and it may have 1048576 bytes at most\n";
    let line = format!("refused standard input:11:{column}: {told}");
    for length in [LONGEST_TEXT + 1, LONGEST_TEXT + 2, 20_000_000] {
        let text = of_length(GROW, length);
        assert_says(&run_on(&["check"], text.as_bytes()), 1, &line);
        assert_gives(&RUN.run_first(text.as_bytes(), &[]), 1, &[], &line);
        assert_gives(&run_on(&["assemble"], text.as_bytes()), 1, &[], &line);
    }
    // What stands after it is not looked at.
    let text = [of_length(GROW, LONGEST_TEXT).as_bytes(), b"\0\xff"].concat();
    let output = run_on(&["check"], &text[..=LONGEST_TEXT]);
    assert_says(&output, 1, "refused 1 0\n");
}

#[cfg(target_os = "linux")]
#[test]
fn endless_bytes_are_refused() {
    for verb in PRINTING {
        for endless in ["/dev/zero", "/dev/urandom"] {
            assert_says(&run(&[verb, endless]), 1, "refused 1 0\n");
        }
    }
    for verb in OF_PROGRAMS {
        let output = run(&[verb.name, "/dev/urandom", &sample("small.tokens")]);
        let line = verb.refused(1, 0);
        assert_gives(&output, 1, &[], &line);
    }
}
