//! What `perform` and `run` have in common as stream runs: what is written
//! before a refusal, and --partial.

use super::run_verbs::{Verb, ENDED, GROWN, PERFORM, RUN, SPENT};
use super::*;

/// What is said of a run that is refused. Its position is the bytes read.
pub fn refused(number: u32, units: usize, read: usize, written: usize) -> String {
    format!("refused {number} {read} units {units} read {read} written {written} number 0\n")
}

const BOTH: [Verb; 2] = [PERFORM, RUN];

/// Document 01's worked cases of the stream run.
#[test]
fn the_worked_cases_are_told() {
    let fuel = ["--fuel", "25"];
    let short = ["--fuel", "25", "--space", "10"];
    for (input, options, line) in [
        (&T[..], &["--fuel", "24"][..], refused(14, 24, 11, 11)),
        (&T, &["--fuel", "2"], refused(14, 2, 1, 1)),
        (&T, &["--fuel", "0"], refused(14, 0, 0, 0)),
        (&T, &short, refused(17, 20, 11, 7)),
        (&[], &["--fuel", "1"], refused(15, 0, 0, 0)),
        (&[1, 5, 0, 0], &fuel, refused(15, 1, 1, 0)),
        (&[3], &fuel, refused(16, 0, 0, 0)),
    ] {
        for verb in BOTH {
            assert_gives(&verb.run_grow_on(input, options), 1, &[], &line);
        }
    }
}

#[test]
fn space_is_what_the_output_has() {
    for verb in BOTH {
        for space in 0..11 {
            let (units, read, written) = match space {
                0 => (1, 1, 0),
                1 => (5, 6, 1),
                2..=5 => (9, 6, 2),
                6 => (16, 11, 6),
                _ => (20, 11, 7),
            };
            let options = ["--fuel", "25", "--partial", "--space", &space.to_string()];
            let line = refused(17, units, read, written);
            assert_gives(&verb.run_grow(&options), 1, &GROWN[..written], &line);
        }
    }
}

// --partial

#[test]
fn partial_may_stand_anywhere() {
    for verb in BOTH {
        let (grow, small) = (verb.grow(), sample("small.tokens"));
        for words in [
            ["--fuel", "24", "--space", "99", "--partial", &grow, &small],
            [&grow, "--partial", "--fuel", "24", &small, "--space", "99"],
            [&grow, &small, "--space", "99", "--fuel", "24", "--partial"],
        ] {
            let output = run(&[&[verb.name], &words[..]].concat());
            assert_gives(&output, 1, &GROWN, SPENT);
        }
    }
}

/// To standard output and into a file.
#[test]
fn partial_data_goes_out() {
    for verb in BOTH {
        let out = verb.folder("partial").join("tokens");
        let out = out.to_str().unwrap();
        for (fuel, read, written) in [
            (0, 0, 0),
            (1, 1, 0),
            (2, 1, 1),
            (6, 6, 2),
            (9, 6, 2),
            (10, 6, 6),
            (24, 11, 11),
        ] {
            let (line, written) = (refused(14, fuel, read, written), &GROWN[..written]);
            let fuel = fuel.to_string();
            let output = verb.run_grow(&["--fuel", &fuel, "--partial"]);
            assert_gives(&output, 1, written, &line);
            fs::write(out, vec![7; 2_000]).unwrap();
            let output = verb.run_grow(&["--fuel", &fuel, "--partial", "--out", out]);
            assert_gives(&output, 1, &[], &line);
            assert_eq!(fs::read(out).unwrap(), written);
        }
    }
}

/// Where the run ends, nothing is partial.
#[test]
fn partial_does_not_matter_to_a_run_that_ends() {
    for verb in BOTH {
        let output = verb.run_grow(&["--fuel", "25", "--partial"]);
        assert_gives(&output, 0, &GROWN, ENDED);
    }
}

#[test]
fn partial_data_goes_out_on_every_refusal() {
    let (fuel, nodes) = (["--fuel", "9999", "--partial"], [2; 2_000]);
    for verb in BOTH {
        for (input, line, data) in [
            (&T[..8], refused(15, 15, 7, 6), &GROWN[..6]),
            (&with(&T, 6, 3), refused(16, 14, 6, 6), &GROWN[..6]),
            (&nodes, refused(18, 3_071, 1_024, 1_024), &nodes[..1_024]),
        ] {
            assert_gives(&verb.run_grow_on(input, &fuel), 1, data, &line);
        }
        let output = verb.run_grow(&[&fuel[..], &["--space", "10"]].concat());
        assert_gives(&output, 1, &GROWN[..7], &refused(17, 20, 11, 7));
    }
}

/// Nothing is read or made before the files are found.
#[test]
fn partial_data_needs_files_that_can_be_read() {
    for verb in BOTH {
        let out = verb.folder("partial-unread").join("out");
        let options = ["--fuel", "25", "--partial", "--out", out.to_str().unwrap()];
        let words = [verb.name, &verb.grow(), "no-such-file"];
        let message = trouble(run(&[&words[..], &options].concat()));
        assert!(message.starts_with("hogvax: no-such-file: "), "{message}");
        assert!(!out.exists());
    }
}

/// After a run that ended, and after one that was refused.
#[test]
fn partial_data_that_cannot_be_written_is_told() {
    for verb in BOTH {
        let folder = verb.folder("partial-unwritten");
        let inside = folder.join("no-such-folder").join("file");
        for fuel in ["25", "24"] {
            for out in [&folder, &inside] {
                let out = out.to_str().unwrap();
                let options = ["--fuel", fuel, "--partial", "--out", out];
                let message = trouble(verb.run_grow(&options));
                let told = format!("hogvax: {out}: ");
                assert!(message.starts_with(&told), "{message}");
            }
            let words = [verb.name, &verb.grow(), "--partial", "--fuel", fuel];
            assert_closed_pipe_is_told(&words, &T);
        }
        assert_eq!(fs::read_dir(&folder).unwrap().count(), 0);
    }
}

#[cfg(target_os = "linux")]
#[test]
fn partial_data_on_a_full_device_is_told() {
    for verb in BOTH {
        for fuel in ["25", "24"] {
            let (grow, small) = (verb.grow(), sample("small.tokens"));
            let words = [verb.name, &grow, &small, "--fuel", fuel, "--partial"];
            assert_full_device_is_told(&words);
        }
    }
}
