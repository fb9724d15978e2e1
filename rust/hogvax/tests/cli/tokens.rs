//! `tokens`.

use reference::{generate, Random};

use super::*;

/// What is said of T's text.
const LINE: &str = "trees 1 bytes 11\n";

fn tokens_on(text: &str) -> Output {
    run_on(&["tokens"], text.as_bytes())
}

/// A new file with this text.
fn text_file(folder_name: &str, text: &[u8]) -> String {
    let path = folder(folder_name).join("trees.nwk");
    fs::write(&path, text).unwrap();
    path.to_str().unwrap().to_owned()
}

// Data

#[test]
fn tokens_go_to_standard_output() {
    let file = text_file("tokens-file", b"(5,7);\n");
    assert_gives(&run(&["tokens", &file]), 0, &T, LINE);
    assert_gives(&run(&["tokens", "--out", "-", &file]), 0, &T, LINE);
    assert_gives(&tokens_on("(5,7);"), 0, &T, LINE);
    assert_gives(&run_on(&["tokens", "-"], b"(5,7);"), 0, &T, LINE);
}

#[test]
fn tokens_go_into_the_file_of_out() {
    let file = text_file("tokens-out", b"(5,7);\n");
    let out = folder("tokens-out-file").join("tokens");
    let out = out.to_str().unwrap();
    for words in [
        ["tokens", &file, "--out", out],
        ["tokens", "--out", out, &file],
    ] {
        assert_gives(&run(&words), 0, &[], LINE);
        assert_eq!(fs::read(out).unwrap(), T);
        // What stood there before is gone.
        fs::write(out, vec![7; 2_000]).unwrap();
    }
}

/// The input is read whole before the file is made.
#[test]
fn tokens_may_take_the_place_of_their_text() {
    let file = text_file("tokens-itself", b"(5,7);\n");
    let output = run(&["tokens", &file, "--out", &file]);
    assert_gives(&output, 0, &[], LINE);
    assert_eq!(fs::read(&file).unwrap(), T);
}

#[test]
fn tokens_of_no_tree_are_none() {
    assert_gives(&run(&["tokens"]), 0, &[], "trees 0 bytes 0\n");
    for text in ["\n", " \t\r\n", "[a comment]", "[a [b]]\r\n"] {
        assert_gives(&tokens_on(text), 0, &[], "trees 0 bytes 0\n");
    }
    // An empty file is made all the same.
    let out = folder("tokens-none").join("tokens");
    let output = run(&["tokens", "--out", out.to_str().unwrap()]);
    assert_gives(&output, 0, &[], "trees 0 bytes 0\n");
    assert_eq!(fs::read(&out).unwrap(), []);
}

#[test]
fn tokens_of_several_trees_stand_back_to_back() {
    let three = [&T[..], &[1, 251, 255, 255, 255], &T].concat();
    let output = tokens_on("(5,7);-5;\r\n[a]('5',+7) ;\n");
    assert_gives(&output, 0, &three, "trees 3 bytes 27\n");
}

#[test]
fn tokens_skip_lengths_and_names_with_a_notice() {
    let length = "notice: 1 branch length skipped\n";
    let lengths = "notice: 3 branch lengths skipped\n";
    let name = "notice: 1 name of a fork skipped\n";
    for (text, notices) in [
        ("(5:0.5,7);", length.to_owned()),
        ("(5:0.5,7:1e-3):2;", lengths.to_owned()),
        ("(5,7)95;", name.to_owned()),
        ("(5,7)95:1;", format!("{length}{name}")),
        ("(5:1,7:2)'a b':3;", format!("{lengths}{name}")),
    ] {
        assert_gives(&tokens_on(text), 0, &T, &format!("{LINE}{notices}"));
    }
    let names = "trees 2 bytes 22\nnotice: 2 names of forks skipped\n";
    assert_gives(&tokens_on("(5,7)a;(5,7)a;"), 0, &T.repeat(2), names);
}

/// Both ways, through both verbs.
#[test]
fn tokens_and_newick_go_back_and_forth() {
    let mut random = Random::new(461);
    for round in 0..12 {
        let mut tokens = Vec::new();
        for _ in 0..round {
            let tips = 1 + random.below(200);
            tokens.extend(generate::tree(&mut random, tips).tokens());
        }
        let text = run_on(&["newick"], &tokens);
        let line = format!("trees {round} bytes {}\n", tokens.len());
        assert_gives(&run_on(&["tokens"], &text.stdout), 0, &tokens, &line);
    }
    for name in ["small.tokens", "clades.tokens"] {
        let text = run(&["newick", &sample(name)]);
        let back = run_on(&["tokens"], &text.stdout);
        assert!(back.stdout == bytes(name) && !back.stdout.is_empty());
    }
}

#[test]
fn tokens_of_large_inputs_are_written() {
    let text = "(5, 7);\n".repeat(400_000);
    let line = "trees 400000 bytes 4400000\n";
    assert_gives(&tokens_on(&text), 0, &T.repeat(400_000), line);
}

// Refusals

/// A text, its file's line and column, and what is wrong there.
const REFUSED: [(&[u8], &str); 8] = [
    (
        b"(5,7,9);",
        "1:5: a fork has two branches, and this is a third",
    ),
    (b"(5);", "1:3: a fork has two branches, and this one has 1"),
    (
        b"(5,\r\n Homo_sapiens);",
        "2:2: the tip 'Homo_sapiens' is not a whole number",
    ),
    (
        b"(5,2147483648);",
        "1:4: the label 2147483648 is out of range: -2147483648 to 2147483647",
    ),
    (b"(5,\n7", "2:2: no ')' for the '(' at 1:1"),
    (b"(5,7)\n", "2:1: the tree has no ';' at its end"),
    (b"[\xc3\xa9]\t\xff", "1:5: this is not UTF-8: byte 0xff"),
    (b"5;'", "1:3: this quote is not closed"),
];

#[test]
fn tokens_are_refused_with_file_line_and_column() {
    for (text, told) in REFUSED {
        let file = text_file("tokens-refused", text);
        let line = format!("refused {file}:{told}\n");
        assert_gives(&run(&["tokens", &file]), 1, &[], &line);
        let line = format!("refused standard input:{told}\n");
        assert_gives(&run_on(&["tokens"], text), 1, &[], &line);
        assert_gives(&run_on(&["tokens", "-"], text), 1, &[], &line);
    }
}

/// The file's name is reported as it was given.
#[test]
fn tokens_tell_a_file_by_the_name_given() {
    let path = folder("tokens-name").join("a b.nwk");
    fs::write(&path, "x;").unwrap();
    let mut command = command(&["tokens", "./a b.nwk"]);
    let output = command
        .current_dir(path.parent().unwrap())
        .output()
        .unwrap();
    let told = "refused ./a b.nwk:1:1: the tip 'x' is not a whole number\n";
    assert_gives(&output, 1, &[], told);
}

#[test]
fn tokens_that_are_refused_make_and_change_no_file() {
    let out = folder("tokens-unmade").join("out");
    let words = ["tokens", "--out", out.to_str().unwrap()];
    for (text, told) in REFUSED {
        let line = format!("refused standard input:{told}\n");
        assert_gives(&run_on(&words, text), 1, &[], &line);
        assert!(!out.exists());
    }
    fs::write(&out, "before").unwrap();
    let (text, told) = REFUSED[0];
    let line = format!("refused standard input:{told}\n");
    assert_gives(&run_on(&words, text), 1, &[], &line);
    assert_eq!(fs::read(&out).unwrap(), b"before");
}

/// Without end of the native stack.
#[test]
fn tokens_of_trees_that_are_too_deep_are_refused() {
    let told = "a fork under 1,024 others: no tree may be so deep";
    let line = format!("refused standard input:1:1025: {told}\n");
    for depth in [1_025, 10_000_000] {
        assert_gives(&tokens_on(&"(".repeat(depth)), 1, &[], &line);
    }
    let whole = format!("{}1{};", "(".repeat(1_024), ",1)".repeat(1_024));
    let output = tokens_on(&whole);
    assert_eq!(output.status.code(), Some(0));
    let line = "tree 6149 tips 1025 depth 1024\n";
    assert_says(&run_on(&["tree"], &output.stdout), 0, line);
}

/// No more is read than the refusal needs.
#[cfg(target_os = "linux")]
#[test]
fn tokens_of_endless_inputs_are_refused() {
    let told = "1:1: a tip or a fork expected, and here is '\\0'\n";
    let line = format!("refused /dev/zero:{told}");
    assert_gives(&run(&["tokens", "/dev/zero"]), 1, &[], &line);
    let input = File::open("/dev/zero").unwrap();
    let output = command(&["tokens"]).stdin(input).output().unwrap();
    let line = format!("refused standard input:{told}");
    assert_gives(&output, 1, &[], &line);
}

// Files that can't be read or written

#[test]
fn tokens_tell_of_files_that_cannot_be_read() {
    let folder = folder("tokens-unread");
    let out = folder.join("out");
    for file in ["no-such-file", folder.to_str().unwrap()] {
        let words = ["tokens", file, "--out", out.to_str().unwrap()];
        let message = trouble(run(&words));
        let told = format!("hogvax: {file}: ");
        assert!(message.starts_with(&told), "{message}");
        assert!(!out.exists());
    }
    let input = File::open(&folder).unwrap();
    let message = trouble(command(&["tokens"]).stdin(input).output().unwrap());
    assert!(message.contains("standard input"), "{message}");
}

#[test]
fn tokens_tell_of_files_that_cannot_be_written() {
    let folder = folder("tokens-unwritten");
    let inside = folder.join("no-such-folder").join("file");
    for out in [&folder, &inside] {
        let out = out.to_str().unwrap();
        let message = trouble(run_on(&["tokens", "--out", out], b"(5,7);"));
        let told = format!("hogvax: {out}: ");
        assert!(message.starts_with(&told), "{message}");
    }
    assert_eq!(fs::read_dir(&folder).unwrap().count(), 0);
}

#[test]
fn tokens_tell_of_a_closed_pipe() {
    assert_closed_pipe_is_told(&["tokens"], b"(5,7);");
}

#[cfg(target_os = "linux")]
#[test]
fn tokens_tell_of_a_full_device() {
    let file = text_file("tokens-full", b"(5,7);\n");
    assert_full_device_is_told(&["tokens", &file]);
}

#[test]
fn tokens_take_a_file_and_out_and_nothing_else() {
    let usage = "hogvax: usage: hogvax tokens [FILE] [--out FILE]\n";
    for words in [
        &["a", "b"][..],
        &["--out"],
        &["a", "--out"],
        &["--out", "--fast"],
        &["--out", "a", "--out", "a"],
        &["--out=a"],
        &["--fast"],
    ] {
        let message = trouble(run(&[&["tokens"], words].concat()));
        assert_eq!(message, usage);
    }
}
