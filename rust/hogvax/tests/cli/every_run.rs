//! What `perform`, `run` and `source` have in common: their answers, operands
//! and options.

use super::run_verbs::{small, ALL, PERFORM, RUN, SOURCE};
use super::*;

#[test]
fn grow_adds_1_to_every_label() {
    for verb in ALL {
        verb.assert_grown(&verb.run_whole(&[]));
        let output = verb.run_grow(&["--fuel", verb.less]);
        assert_gives(&output, 1, &[], verb.spent);
    }
}

#[test]
fn what_stands_behind_the_tree_does_not_matter() {
    let mut input = T.to_vec();
    input.resize(20_000_000, 3);
    for verb in ALL {
        verb.assert_grown(&verb.run_grow_on(&input, &verb.fuel()));
    }
}

/// No more is read than some hundred megabytes, and a run needs less.
#[cfg(target_os = "linux")]
#[test]
fn endless_inputs_are_refused() {
    for verb in ALL {
        let (grow, fuel) = (verb.grow(), verb.fuel());
        let words = [&[verb.name, &grow, "/dev/zero"], &fuel[..]].concat();
        let line = verb.refused(16, 0);
        assert_gives(&run(&words), 1, &[], &line);
    }
}

/// Every label of a long tree is 1 more.
#[test]
fn long_trees_go_through() {
    use reference::Token::{Leaf, Node};
    let tips = 1 << 18;
    let tree = reference::generate::balanced(&mut reference::Random::new(160), tips);
    let (mut tokens, mut grown) = (Vec::new(), Vec::new());
    for token in tree.prefix() {
        // A label that is one more is in range.
        let (token, more) = match token {
            Leaf(label) => (Leaf(label / 2), Leaf(label / 2 + 1)),
            Node => (Node, Node),
        };
        token.write(&mut tokens);
        more.write(&mut grown);
    }
    // Each leaf takes 10 instructions, each node 5; and 5 expressions, and 4.
    let (units, length) = (10 * tips + 5 * (tips - 1), grown.len());
    let streamed = format!("ended units {units} read {length} written {length} number 0\n");
    let begun = 5 * tips + 4 * (tips - 1);
    let sourced = format!("ended begun {begun} written {length} number 0 tips {tips} depth 18\n");
    for (verb, line) in [(PERFORM, &streamed), (RUN, &streamed), (SOURCE, &sourced)] {
        let output = verb.run_grow_on(&tokens, &["--fuel", "1000000000"]);
        assert_gives(&output, 0, &grown, line);
    }
}

// Operands and options

#[test]
fn standard_input_is_the_first_file_or_the_second() {
    for verb in ALL {
        let (grow, fuel) = (bytes(verb.grow), verb.fuel());
        verb.assert_grown(&verb.run_grow_on(&T, &fuel));
        verb.assert_grown(&verb.run_grow_on(&T, &[&["-"], &fuel[..]].concat()));
        verb.assert_grown(&verb.run_first(&grow, &fuel));
        for words in [&[verb.name, "-"][..], &[verb.name, "-", "-"]] {
            let message = trouble(run_on(&[words, &fuel].concat(), &grow));
            let told = "and FILE can't both be standard input; FILE is, if it is left out";
            assert_eq!(message, format!("hogvax: {} {told}\n", verb.first));
        }
    }
}

#[test]
fn options_may_stand_anywhere() {
    for verb in ALL {
        let (grow, small, enough) = (verb.grow(), small(), verb.enough);
        for words in [
            [
                "--fuel", enough, "--space", "99", "--out", "-", &grow, &small,
            ],
            [
                &grow, "--out", "-", "--fuel", enough, &small, "--space", "99",
            ],
            [
                &grow, &small, "--space", "99", "--out", "-", "--fuel", enough,
            ],
        ] {
            verb.assert_grown(&run(&[&[verb.name], &words[..]].concat()));
        }
    }
}

#[test]
fn fuel_is_any_number_of_64_bits() {
    // In 32 bits the second would be 0.
    for fuel in ["0025", "4294967296", "18446744073709551615"] {
        for verb in ALL {
            verb.assert_grown(&verb.run_grow(&["--fuel", fuel]));
        }
    }
}

/// Words that are no decimal number of 64 bits.
const NOT_NUMBERS: [&str; 15] = [
    "",
    " ",
    "ten",
    "-1",
    "+1",
    "1.5",
    "1,000",
    "1_000",
    "0x10",
    "1e3",
    "1M",
    " 1",
    "\u{661}",
    "--partial",
    "18446744073709551616",
];

#[test]
fn numbers_are_decimal() {
    for verb in ALL {
        for option in ["--fuel", "--space", "--most-space"] {
            for word in NOT_NUMBERS {
                let words = [verb.name, "first", option, word, "--fuel", "25"];
                let given = if option == "--fuel" { 4 } else { 6 };
                let told = "takes a decimal number up to 18446744073709551615, not";
                let message = format!("hogvax: {option} {told} '{word}'\n");
                assert_eq!(trouble(run(&words[..given])), message);
            }
        }
    }
}

#[cfg(unix)]
#[test]
fn numbers_that_are_no_text_are_told() {
    use std::ffi::OsStr;
    use std::os::unix::ffi::OsStrExt;
    for verb in ALL {
        let mut command = command(&[verb.name, "first", "--fuel"]);
        let output = command.arg(OsStr::from_bytes(b"2\xff")).output().unwrap();
        let message = trouble(output);
        let told = "hogvax: --fuel takes a decimal number ";
        assert!(message.starts_with(told), "{message}");
    }
}

#[test]
fn other_words_are_wrong_usage() {
    for words in [
        &[][..],
        &["--fuel", "25"],
        &["a", "b", "c", "--fuel", "25"],
        &["a", "b", "25"],
        &["a", "--fuel"],
        &["a", "--fuel", "25", "--fuel", "25"],
        &["a", "--fuel=25"],
        &["a", "-f", "25"],
        &["a", "--fuel", "25", "--space"],
        &["a", "--fuel", "25", "--most-space"],
        &["a", "--fuel", "25", "--space", "9", "--space", "9"],
        &["a", "--fuel", "25", "--out"],
        &["a", "--fuel", "25", "--out", "--partial"],
        &["a", "--fuel", "25", "--out", "b", "--out", "b"],
        &["a", "--fuel", "25", "--partial", "--partial"],
        &["a", "--fuel", "25", "--part"],
        &["a", "--fuel", "25", "--fast"],
    ] {
        for verb in ALL {
            let message = trouble(run(&[&[verb.name], words].concat()));
            assert_eq!(message, format!("hogvax: {}\n", verb.usage));
        }
    }
}

/// A source run that is refused has written nothing.
#[test]
fn source_has_no_partial_data() {
    let message = trouble(SOURCE.run_grow(&["--partial"]));
    assert_eq!(message, format!("hogvax: {}\n", SOURCE.usage));
}

/// No file is read or made before the words are found right.
#[test]
fn wrong_usage_comes_first() {
    for verb in ALL {
        let out = verb.folder("usage").join("out");
        for options in [
            &["--fuel", "x"][..],
            &["--fuel", "1", "--space", "x"],
            &["--fuel", "1", "--most-space", "x"],
            &["--fuel", "1", "--space", "1", "--most-space", "1"],
        ] {
            let words = [verb.name, "no-such-file", "--out", out.to_str().unwrap()];
            let message = trouble(run(&[&words, options].concat()));
            assert!(!message.contains("no-such-file"), "{message}");
            assert!(!out.exists());
        }
    }
}

// Space

#[test]
fn space_may_be_any_that_is_enough() {
    for verb in ALL {
        for space in ["11", "12", "100000000"] {
            verb.assert_grown(&verb.run_whole(&["--space", space]));
        }
        for most in ["11", "1048576", "18446744073709551615"] {
            verb.assert_grown(&verb.run_whole(&["--most-space", most]));
        }
    }
}

#[test]
fn space_and_most_space_do_not_go_together() {
    let told = "--space and --most-space don't go together: a space that is given does not grow";
    for verb in ALL {
        let output = verb.run_whole(&["--space", "10", "--most-space", "20"]);
        assert_eq!(trouble(output), format!("hogvax: {told}\n"));
    }
}

#[cfg(target_pointer_width = "64")]
#[test]
fn space_that_is_not_there_is_told() {
    for space in ["9223372036854775807", "18446744073709551615"] {
        for verb in ALL {
            let message = trouble(verb.run_whole(&["--space", space]));
            let told = format!("no memory for an output of {space} bytes");
            assert_eq!(message, format!("hogvax: {told}\n"));
        }
    }
}
