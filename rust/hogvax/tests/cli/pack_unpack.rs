//! `pack` and `unpack`.

use super::*;

/// A verb that writes data, with a sample, what it makes of it, and what it
/// says.
struct Verb {
    name: &'static str,
    from: &'static str,
    to: &'static str,
    line: &'static str,
    /// An input that is refused, and the line that tells it.
    refused: (&'static [u8], &'static str),
}

const PACK: Verb = Verb {
    name: "pack",
    from: "programs/prune.records",
    to: "programs/prune.program",
    line: "file 512\n",
    refused: (&[1, 1, 1, 0], "refused 4 0\n"),
};

const UNPACK: Verb = Verb {
    name: "unpack",
    from: "programs/prune.program",
    to: "programs/prune.records",
    line: "records 280\n",
    refused: (&[0; 512], "refused 2 0\n"),
};

const BOTH: [&Verb; 2] = [&PACK, &UNPACK];

// Data

#[test]
fn data_goes_to_standard_output() {
    for verb in BOTH {
        let (from, to) = (sample(verb.from), bytes(verb.to));
        let output = run(&[verb.name, &from]);
        assert_gives(&output, 0, &to, verb.line);
        let output = run(&[verb.name, "--out", "-", &from]);
        assert_gives(&output, 0, &to, verb.line);
    }
}

#[test]
fn standard_input_is_read() {
    for verb in BOTH {
        let (from, to) = (bytes(verb.from), bytes(verb.to));
        assert_gives(&run_on(&[verb.name], &from), 0, &to, verb.line);
        assert_gives(&run_on(&[verb.name, "-"], &from), 0, &to, verb.line);
    }
}

#[test]
fn data_goes_into_the_file_of_out() {
    let folder = folder("out");
    for verb in BOTH {
        let (from, to) = (sample(verb.from), bytes(verb.to));
        let out = folder.join(verb.name);
        let out = out.to_str().unwrap();
        for words in [
            [verb.name, &from, "--out", out],
            [verb.name, "--out", out, &from],
        ] {
            assert_gives(&run(&words), 0, &[], verb.line);
            assert_eq!(fs::read(out).unwrap(), to);
            // What stood there before, shorter or longer, is gone.
            fs::write(out, vec![7; 2_000]).unwrap();
        }
        let output = run_on(&[verb.name, "--out", out], &bytes(verb.from));
        assert_gives(&output, 0, &[], verb.line);
        assert_eq!(fs::read(out).unwrap(), to);
    }
}

/// The input is read whole before the file is made.
#[test]
fn a_file_may_be_turned_into_itself() {
    let file = folder("itself").join("program");
    let path = file.to_str().unwrap();
    fs::write(path, bytes(PACK.from)).unwrap();
    for verb in BOTH {
        let output = run(&[verb.name, path, "--out", path]);
        assert_gives(&output, 0, &[], verb.line);
        assert_eq!(fs::read(path).unwrap(), bytes(verb.to));
    }
}

#[test]
fn every_sample_goes_through_both() {
    for name in ["depth", "grow", "prune", "sum", "tips"] {
        let records = bytes(&format!("programs/{name}.records"));
        let packed = run_on(&["pack"], &records);
        assert_gives(
            &packed,
            0,
            &bytes(&format!("programs/{name}.program")),
            "file 512\n",
        );
        let line = format!("records {}\n", records.len());
        assert_gives(&run_on(&["unpack"], &packed.stdout), 0, &records, &line);
    }
}

#[test]
fn the_longest_program_goes_through_both() {
    let mut random = reference::Random::new(150);
    let program = reference::generate::programs::program(&mut random, 32, 1_024);
    let records = program.records();
    let file = reference::write_file(&records).unwrap();
    assert_gives(&run_on(&["pack"], &records), 0, &file, "file 8704\n");
    assert_gives(&run_on(&["unpack"], &file), 0, &records, "records 8456\n");
}

// Refusals

#[test]
fn refusals_give_no_data() {
    for (verb, input, line) in [
        ("pack", &[][..], "refused 4 0\n"),
        ("unpack", &[], "refused 1 0\n"),
        ("unpack", &[0; 511], "refused 1 0\n"),
        ("unpack", &[0; 512], "refused 2 0\n"),
        ("unpack", &reference::lay_out_runs(&[&[]]), "refused 3 0\n"),
    ] {
        assert_gives(&run_on(&[verb], input), 1, &[], line);
    }
    let records = bytes("programs/grow.records");
    for (place, byte, line) in [
        (0, 2, "refused 4 0\n"),
        (8, 2, "refused 5 1\n"),
        (16, 9, "refused 6 2\n"),
        (16, 5, "refused 7 2\n"),
    ] {
        let damaged = with(&records, place, byte);
        assert_gives(&run_on(&["pack"], &damaged), 1, &[], line);
        let file = reference::lay_out(&damaged);
        assert_gives(&run_on(&["unpack"], &file), 1, &[], line);
    }
}

#[test]
fn refusals_make_and_change_no_file() {
    let folder = folder("refusals");
    for verb in BOTH {
        let (input, line) = verb.refused;
        let out = folder.join(verb.name);
        let words = [verb.name, "--out", out.to_str().unwrap()];
        assert_gives(&run_on(&words, input), 1, &[], line);
        assert!(!out.exists());
        fs::write(&out, "before").unwrap();
        assert_gives(&run_on(&words, input), 1, &[], line);
        assert_eq!(fs::read(&out).unwrap(), b"before");
    }
}

#[test]
fn long_inputs_are_refused() {
    for (verb, longest, line) in [
        (&PACK, 8_456, "refused 4 0\n"),
        (&UNPACK, 8_704, "refused 1 0\n"),
    ] {
        for length in [longest + 1, longest + 8, longest + 512, 20_000_000] {
            let mut input = bytes(verb.from);
            input.resize(length, 0);
            assert_gives(&run_on(&[verb.name], &input), 1, &[], line);
        }
    }
}

/// No more is read than the answer needs.
#[cfg(target_os = "linux")]
#[test]
fn endless_inputs_are_refused() {
    for (verb, line) in [("pack", "refused 4 0\n"), ("unpack", "refused 1 0\n")] {
        assert_gives(&run(&[verb, "/dev/zero"]), 1, &[], line);
        let input = File::open("/dev/zero").unwrap();
        let output = command(&[verb]).stdin(input).output().unwrap();
        assert_gives(&output, 1, &[], line);
    }
}

// Files that can't be read or written

#[test]
fn files_that_cannot_be_read_are_told() {
    let folder = folder("unread");
    for verb in BOTH {
        let out = folder.join(verb.name);
        let words = [verb.name, "no-such-file", "--out", out.to_str().unwrap()];
        let message = trouble(run(&words));
        assert!(message.contains("no-such-file"), "{message}");
        assert!(!out.exists());
        let message = trouble(run(&[verb.name, folder.to_str().unwrap()]));
        assert!(message.contains("unread"), "{message}");
    }
}

#[test]
fn files_that_cannot_be_written_are_told() {
    let folder = folder("unwritten");
    let inside = folder.join("no-such-folder").join("file");
    for verb in BOTH {
        for out in [&folder, &inside] {
            let out = out.to_str().unwrap();
            let message = trouble(run(&[verb.name, &sample(verb.from), "--out", out]));
            assert!(message.contains(out), "{message}");
        }
    }
    assert_eq!(fs::read_dir(&folder).unwrap().count(), 0);
}

#[test]
fn a_closed_pipe_is_told() {
    for verb in BOTH {
        assert_closed_pipe_is_told(&[verb.name], &bytes(verb.from));
    }
}

#[cfg(target_os = "linux")]
#[test]
fn a_full_device_is_told() {
    for verb in BOTH {
        assert_full_device_is_told(&[verb.name, &sample(verb.from)]);
    }
}
