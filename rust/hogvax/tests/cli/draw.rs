//! `draw`.

use hogvax::draw::{Drawing, Strokes};
use reference::{generate, Random};

#[cfg(target_os = "linux")]
use super::terminal::{in_terminal, quoted};
use super::*;

/// The tree T in 80 columns, which is the width where there is no terminal.
fn small() -> String {
    let branch = "─".repeat(76);
    format!(" ┌{branch} 5\n─┤\n └{branch} 7\n")
}

/// The drawing that the library makes.
fn drawing(tokens: &[u8], width: usize, strokes: Strokes) -> String {
    Drawing::new(tokens, width, strokes).unwrap().to_string()
}

/// Draws with these words and token bytes.
fn draw_on(words: &[&str], input: &[u8]) -> Output {
    run_on(&[&["draw"], words].concat(), input)
}

/// Draws with these columns in the environment, or none.
fn draw_in(columns: Option<&str>, words: &[&str]) -> String {
    let mut command = command(&[&["draw"], words].concat());
    match columns {
        Some(columns) => command.env("COLUMNS", columns),
        None => command.env_remove("COLUMNS"),
    };
    let output = command.output().unwrap();
    assert_eq!(output.status.code(), Some(0));
    assert_eq!(String::from_utf8_lossy(&output.stderr), "");
    String::from_utf8(output.stdout).unwrap()
}

// Drawings

#[test]
fn draw_draws_the_samples() {
    assert_says(&run(&["draw", &sample("small.tokens")]), 0, &small());
    let clades = sample("clades.tokens");
    let lines = [
        "     +--------------- 1",
        " +---+   +----------- 2",
        " |   +---+   +------- 3",
        " |       +---+   +--- 4",
        " |           +---+",
        "-+               +--- 5",
        " |       +----------- 6",
        " |   +---+",
        " +---+   +----------- 7",
        "     |   +----------- 8",
        "     +---+",
        "         +----------- 9",
    ];
    let output = run(&["draw", &clades, "--ascii", "--width", "23"]);
    assert_says(&output, 0, &(lines.join("\n") + "\n"));
}

#[test]
fn draw_reads_standard_input() {
    assert_says(&draw_on(&[], &T), 0, &small());
    assert_says(&draw_on(&["-"], &T), 0, &small());
}

#[test]
fn draw_draws_a_single_tip() {
    let tip = [1, 251, 255, 255, 255];
    assert_says(&draw_on(&["--width", "6"], &tip), 0, "─── -5\n");
    assert_says(&draw_on(&["--width", "0"], &tip), 0, "─ -5\n");
    let branch = "-".repeat(77);
    let line = format!("{branch} -5\n");
    assert_says(&draw_on(&["--ascii"], &tip), 0, &line);
}

#[test]
fn draw_draws_random_trees() {
    let mut random = Random::new(471);
    for _ in 0..12 {
        let tips = 1 + random.below(60);
        let tree = generate::tree(&mut random, tips).tokens();
        let width = random.below(120);
        let number = width.to_string();
        let lines = drawing(&tree, width, Strokes::Lines);
        assert_says(&draw_on(&["--width", &number], &tree), 0, &lines);
        let ascii = drawing(&tree, width, Strokes::Ascii);
        let words = ["--ascii", "--width", &number];
        assert_says(&draw_on(&words, &tree), 0, &ascii);
    }
}

#[test]
fn draw_draws_long_trees() {
    let mut random = Random::new(472);
    let tree = generate::balanced(&mut random, 1 << 18).tokens();
    assert!(tree.len() > 1 << 20);
    let lines = drawing(&tree, 80, Strokes::Lines);
    assert_says(&draw_on(&["--width", "80"], &tree), 0, &lines);
}

// --tree

#[test]
fn draw_draws_the_tree_that_is_asked_for() {
    let mut input = Vec::new();
    for label in 1..=3 {
        input.extend(two_leaves(label, -label));
    }
    for (number, label) in [("1", 1), ("2", 2), ("3", 3), ("003", 3)] {
        let lines = drawing(&two_leaves(label, -label), 80, Strokes::Lines);
        let words = ["--tree", number, "--width", "80"];
        assert_says(&draw_on(&words, &input), 0, &lines);
    }
    let first = drawing(&two_leaves(1, -1), 80, Strokes::Lines);
    assert_says(&draw_on(&["--width", "80"], &input), 0, &first);
}

/// After more than is read at once.
#[test]
fn draw_finds_a_tree_far_in_the_file() {
    let mut input = T.repeat(300_000);
    input.extend(two_leaves(8, 9));
    let lines = drawing(&two_leaves(8, 9), 80, Strokes::Lines);
    let words = ["--tree", "300001", "--width", "80"];
    assert_says(&draw_on(&words, &input), 0, &lines);
}

#[test]
fn draw_tells_that_a_tree_is_not_there() {
    for (input, number, count) in [
        (&[][..], "1", 0),
        (&T, "2", 1),
        (&T.repeat(5), "6", 5),
        (&T, "18446744073709551615", 1),
    ] {
        let message = trouble(draw_on(&["--tree", number], input));
        let told = format!("standard input: no tree {number}; trees in it: {count}");
        assert_eq!(message, format!("hogvax: {told}\n"));
    }
    let file = sample("small.tokens");
    let message = trouble(run(&["draw", &file, "--tree", "2"]));
    let told = format!("{file}: no tree 2; trees in it: 1");
    assert_eq!(message, format!("hogvax: {told}\n"));
}

#[test]
fn draw_has_no_tree_0() {
    for number in ["0", "000"] {
        let message = trouble(run(&["draw", "no-such-file", "--tree", number]));
        assert_eq!(message, "hogvax: --tree takes a number from 1 up, not 0\n");
    }
}

// The width

/// A tree whose drawing has another width for each number of columns that is
/// tried here.
fn ladder(name: &str) -> (String, Vec<u8>) {
    let tokens = generate::right_caterpillar(&mut Random::new(473), 12).tokens();
    let path = folder(name).join("tokens");
    fs::write(&path, &tokens).unwrap();
    (path.to_str().unwrap().to_owned(), tokens)
}

#[test]
fn draw_fills_the_columns_of_the_environment() {
    let (file, tokens) = ladder("draw-columns");
    for columns in ["1", "40", "60", "72", "100", "1000"] {
        let lines = drawing(&tokens, columns.parse().unwrap(), Strokes::Lines);
        assert_eq!(draw_in(Some(columns), &[&file]), lines);
    }
}

#[cfg(target_os = "linux")]
#[test]
fn draw_fills_the_columns_of_the_terminal() {
    let (file, tokens) = ladder("draw-terminal");
    let (hogvax, file) = (quoted(HOGVAX), quoted(&file));
    for columns in [40, 72, 100] {
        let line = format!("unset COLUMNS; stty cols {columns}; {hogvax} draw {file}");
        let drawn = in_terminal(&line);
        let lines = drawing(&tokens, columns, Strokes::Lines);
        assert_eq!(drawn, lines.replace('\n', "\r\n"));
    }
}

/// Standard output is no terminal here.
#[test]
fn draw_fills_80_columns_where_none_are_known() {
    let (file, tokens) = ladder("draw-80");
    let lines = drawing(&tokens, 80, Strokes::Lines);
    assert_ne!(lines, drawing(&tokens, 100, Strokes::Lines));
    assert_eq!(draw_in(None, &[&file]), lines);
    for columns in ["", "0", "-60", "wide", "60x", "99999999999999999999"] {
        assert_eq!(draw_in(Some(columns), &[&file]), lines, "{columns}");
    }
}

#[test]
fn draw_fills_the_width_that_is_given() {
    let (file, tokens) = ladder("draw-width");
    for (word, width) in [
        ("0", 0),
        ("50", 50),
        ("060", 60),
        ("18446744073709551615", usize::MAX),
    ] {
        let lines = drawing(&tokens, width, Strokes::Lines);
        let drawn = draw_in(Some("72"), &[&file, "--width", word]);
        assert_eq!(drawn, lines, "{word}");
    }
}

// Refusals

#[test]
fn draw_prints_refusals() {
    for (input, line) in [
        (&[3][..], "refused 16 0\n"),
        (&[1, 5, 0, 0], "refused 15 1\n"),
        (&T[..6], "refused 15 6\n"),
        (&[2; 1_025], "refused 20 1024\n"),
    ] {
        assert_says(&draw_on(&[], input), 1, line);
        let input = [&T, input].concat();
        let (number, position) = line.trim_end().rsplit_once(' ').unwrap();
        let position: usize = position.parse().unwrap();
        let line = format!("{number} {}\n", position + T.len());
        assert_says(&draw_on(&["--tree", "2"], &input), 1, &line);
        // A later tree is not reached.
        assert_says(&draw_on(&["--tree", "3"], &input), 1, &line);
    }
}

#[test]
fn draw_does_not_look_behind_the_tree() {
    let mut input = T.to_vec();
    input.resize(20_000_000, 3);
    assert_says(&draw_on(&[], &input), 0, &small());
}

/// An input without end has a first tree.
#[test]
fn draw_reads_no_more_than_it_draws() {
    let mut child = piped(&["draw"]);
    let mut stdin = child.stdin.take().unwrap();
    let trees = T.repeat(100_000);
    // The pipe is closed when the tree is drawn.
    while stdin.write_all(&trees).is_ok() {}
    assert_says(&child.wait_with_output().unwrap(), 0, &small());
}

// Words

#[test]
fn draw_takes_numbers_that_are_decimal() {
    for option in ["--tree", "--width"] {
        for word in ["", "x", "-1", "+1", "1.5", "18446744073709551616"] {
            let message = trouble(run(&["draw", "no-such-file", option, word]));
            let told = "takes a decimal number up to 18446744073709551615, not";
            assert_eq!(message, format!("hogvax: {option} {told} '{word}'\n"));
        }
    }
}

#[test]
fn draw_takes_its_options_and_nothing_else() {
    let usage = "hogvax: usage: hogvax draw [FILE] [--tree N] [--width M] [--ascii]\n";
    for words in [
        &["a", "b"][..],
        &["--tree"],
        &["--width"],
        &["--ascii", "--ascii"],
        &["--tree", "1", "--tree", "1"],
        &["--tree=1"],
        &["--out", "a"],
        &["--unicode"],
    ] {
        let message = trouble(run(&[&["draw"], words].concat()));
        assert_eq!(message, usage);
    }
    let clades = sample("clades.tokens");
    let drawn = draw_in(None, &[&clades, "--ascii", "--width", "30", "--tree", "1"]);
    let turned = draw_in(None, &["--tree", "1", "--width", "30", "--ascii", &clades]);
    assert_eq!(drawn, turned);
}
