//! `assemble`.

use super::texts::{explained, GROW, MISPLACED, MISPLACED_NOTICE};
use super::*;

/// What is said of a text with a wrong word, read from this file.
fn unread(name: &str) -> String {
    format!("refused {name}:2:3: record 2: no kind of record is called 'Csae'\n")
}

const UNREAD: &str = "function 0 takes tree 0 gives tree\n  Csae 0\n";

// Data

#[test]
fn assemble_writes_the_program_file_of_a_text() {
    let text = folder("assemble").join("grow.txt");
    let text = text.to_str().unwrap();
    fs::write(text, GROW).unwrap();
    let file = bytes("programs/grow.program");
    for output in [
        run(&["assemble", text]),
        run(&["assemble", "--out", "-", text]),
        run_on(&["assemble"], GROW.as_bytes()),
        run_on(&["assemble", "-"], GROW.as_bytes()),
    ] {
        assert_gives(&output, 0, &file, "file 512\n");
    }
}

#[test]
fn assemble_writes_into_the_file_of_out() {
    let out = folder("assemble-out").join("program");
    let out = out.to_str().unwrap();
    for before in [None, Some(vec![7; 5]), Some(vec![7; 2_000])] {
        if let Some(before) = before {
            fs::write(out, before).unwrap();
        }
        let output = run_on(&["assemble", "--out", out], GROW.as_bytes());
        assert_gives(&output, 0, &[], "file 512\n");
        assert_eq!(fs::read(out).unwrap(), bytes("programs/grow.program"));
    }
    // The text is read whole before the file is made.
    fs::write(out, GROW).unwrap();
    let output = run(&["assemble", out, "--out", out]);
    assert_gives(&output, 0, &[], "file 512\n");
    assert_eq!(fs::read(out).unwrap(), bytes("programs/grow.program"));
}

#[test]
fn assemble_turns_back_what_show_prints() {
    for name in ["depth", "grow", "prune", "sum", "swap", "tips"] {
        let program = format!("programs/{name}.program");
        for words in [&["show"][..], &["show", "--bare"]] {
            let text = run(&[words, &[&sample(&program)]].concat()).stdout;
            let output = run_on(&["assemble"], &text);
            assert_gives(&output, 0, &bytes(&program), "file 512\n");
        }
    }
}

/// 1,024 nodes in 32 functions.
#[test]
fn assemble_writes_the_longest_program() {
    let mut random = reference::Random::new(340);
    let program = reference::generate::programs::program(&mut random, 32, 1_024);
    let file = lay_out(&program.records());
    let text = run_on(&["show"], &file).stdout;
    assert_gives(&run_on(&["assemble"], &text), 0, &file, "file 8704\n");
}

/// The text in its own help is the sample.
#[test]
fn the_text_in_the_help_is_a_program() {
    let help = printed(run(&["help", "assemble"]));
    let (_, text) = help.split_once("begins a comment:\n").unwrap();
    let (text, _) = text.split_once("\n\n").unwrap();
    let file = bytes("programs/depth.program");
    assert_gives(
        &run_on(&["assemble"], text.as_bytes()),
        0,
        &file,
        "file 512\n",
    );
}

// Refusals

#[test]
fn assemble_tells_lines_that_cannot_be_read() {
    let output = run_on(&["assemble"], UNREAD.as_bytes());
    assert_gives(&output, 1, &[], &unread("standard input"));
    let text = folder("assemble-unread").join("a text.txt");
    let text = text.to_str().unwrap();
    fs::write(text, UNREAD).unwrap();
    assert_gives(&run(&["assemble", text]), 1, &[], &unread(text));
}

/// The refusals of records, each with its explanation.
#[test]
fn assemble_tells_why_records_are_no_program() {
    for (text, line) in [
        ("", "refused 4 0\n"),
        ("# Nothing.\n", "refused 4 0\n"),
        ("function 0 takes tree 0 gives tree\n", "refused 4 0\n"),
        (
            "function 0 takes tree 0, number 0 gives tree\nVar 0",
            "refused 5 1\n",
        ),
        (
            "function 0 takes tree 0 gives tree\nLeaf\nCall 1 on 0",
            "refused 6 3\n",
        ),
        (
            "function 0 takes tree 0 gives tree\n  Leaf\n",
            "refused 7 2\n",
        ),
        (
            "function 0 takes tree 0 gives tree\n  Var 0\n  Var 0\n",
            "refused 7 2\n",
        ),
    ] {
        let output = run_on(&["assemble"], text.as_bytes());
        let told = format!("{line}{}", explained("standard input", text, line));
        assert_gives(&output, 1, &[], &told);
    }
}

/// Names, types and order are looked at by `check`.
#[test]
fn assemble_takes_programs_that_check_refuses() {
    for (body, line) in [
        ("Const 1", "refused 8 2\n"),
        ("Var 0", "refused 9 2\n"),
        ("Leaf\nConst 1", "refused 11 2\n"),
    ] {
        let text = format!("function 0 takes tree 0 gives tree\n{body}\n");
        let output = run_on(&["assemble"], text.as_bytes());
        assert_eq!(output.status.code(), Some(0));
        assert_says(&run_on(&["check"], &output.stdout), 1, line);
    }
}

#[test]
fn refusals_make_and_change_no_file() {
    let out = folder("assemble-refused").join("program");
    let words = ["assemble", "--out", out.to_str().unwrap()];
    for input in [UNREAD, "", "function 0 takes tree 0 gives tree\n"] {
        let output = run_on(&words, input.as_bytes());
        assert_eq!(output.status.code(), Some(1));
        assert!(!out.exists());
    }
    fs::write(&out, "before").unwrap();
    assert_eq!(run_on(&words, UNREAD.as_bytes()).status.code(), Some(1));
    assert_eq!(fs::read(&out).unwrap(), b"before");
}

#[test]
fn assemble_refuses_what_is_no_text() {
    let program = bytes("programs/grow.program");
    let line = "refused standard input:1:4: a zero byte, which no text has\n";
    assert_gives(&run_on(&["assemble"], &program), 1, &[], line);
    let line = "refused standard input:1:3: these bytes are no character of UTF-8\n";
    assert_gives(&run_on(&["assemble"], b"# \xff"), 1, &[], line);
}

/// No more is read than the answer needs.
#[cfg(target_os = "linux")]
#[test]
fn assemble_refuses_endless_inputs() {
    let line = "refused /dev/zero:1:1: a zero byte, which no text has\n";
    assert_gives(&run(&["assemble", "/dev/zero"]), 1, &[], line);
    let output = run(&["assemble", "/dev/urandom"]);
    assert_eq!((output.status.code(), output.stdout.len()), (Some(1), 0));
    let message = String::from_utf8(output.stderr).unwrap();
    assert!(message.starts_with("refused /dev/urandom:"), "{message}");
}

// Notices

#[test]
fn assemble_tells_a_line_that_stands_elsewhere() {
    let output = run_on(&["assemble"], MISPLACED.as_bytes());
    let file = bytes("programs/sum.program");
    assert_gives(&output, 0, &file, &format!("file 512\n{MISPLACED_NOTICE}"));
}

// Words, and files that can't be read or written

#[test]
fn other_words_are_wrong_usage() {
    for words in [
        &["a", "b"][..],
        &["--out"],
        &["a", "--out", "--fast"],
        &["--out", "a", "--out", "a"],
        &["--bare"],
    ] {
        let message = trouble(run(&[&["assemble"], words].concat()));
        assert_eq!(
            message,
            "hogvax: usage: hogvax assemble [FILE] [--out FILE]\n"
        );
    }
}

#[test]
fn files_that_cannot_be_read_or_written_are_told() {
    let folder = folder("assemble-unwritten");
    let out = folder.join("no-such-folder").join("file");
    let (folder, out) = (folder.to_str().unwrap(), out.to_str().unwrap());
    for unread in ["no-such-file", folder] {
        let message = trouble(run(&["assemble", unread]));
        assert!(
            message.starts_with(&format!("hogvax: {unread}: ")),
            "{message}"
        );
    }
    for out in [folder, out] {
        let message = trouble(run_on(&["assemble", "--out", out], GROW.as_bytes()));
        assert!(
            message.starts_with(&format!("hogvax: {out}: ")),
            "{message}"
        );
    }
    assert_closed_pipe_is_told(&["assemble"], GROW.as_bytes());
}

#[cfg(target_os = "linux")]
#[test]
fn a_full_device_is_told() {
    let text = folder("assemble-full").join("grow.txt");
    let text = text.to_str().unwrap();
    fs::write(text, GROW).unwrap();
    assert_full_device_is_told(&["assemble", text]);
}
