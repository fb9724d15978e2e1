//! What `perform`, `run` and `source` have in common: the data that they write,
//! and files that can't be read or written.

use super::run_verbs::{small, ALL, GROWN};
use super::*;

#[test]
fn data_goes_into_the_file_of_out() {
    for verb in ALL {
        let out = verb.folder("out").join("tokens");
        let out = out.to_str().unwrap();
        for before in [None, Some(vec![7; 5]), Some(vec![7; 2_000])] {
            if let Some(before) = before {
                fs::write(out, before).unwrap();
            }
            assert_gives(&verb.run_whole(&["--out", out]), 0, &[], verb.ended);
            assert_eq!(fs::read(out).unwrap(), GROWN);
        }
        verb.assert_grown(&verb.run_whole(&["--out", "-"]));
    }
}

/// The input is read whole before the file is made.
#[test]
fn a_file_may_be_turned_into_itself() {
    for verb in ALL {
        let file = verb.folder("itself").join("tokens");
        let path = file.to_str().unwrap();
        fs::write(path, T).unwrap();
        let words = [verb.name, &verb.grow(), path, "--out", path];
        let output = run(&[&words[..], &verb.fuel()].concat());
        assert_gives(&output, 0, &[], verb.ended);
        assert_eq!(fs::read(path).unwrap(), GROWN);
    }
}

#[test]
fn refusals_make_and_change_no_file() {
    for verb in ALL {
        let out = verb.folder("refused").join("tokens");
        let options = ["--fuel", verb.less, "--out", out.to_str().unwrap()];
        assert_gives(&verb.run_grow(&options), 1, &[], verb.spent);
        assert!(!out.exists());
        fs::write(&out, "before").unwrap();
        assert_gives(&verb.run_grow(&options), 1, &[], verb.spent);
        assert_eq!(fs::read(&out).unwrap(), b"before");
    }
}

// Files that can't be read or written

#[test]
fn files_that_cannot_be_read_are_told() {
    for verb in ALL {
        let folder = verb.folder("unread");
        let out = folder.join("out");
        let folder = folder.to_str().unwrap();
        let out_words = ["--out", out.to_str().unwrap()];
        let options = [verb.fuel(), out_words].concat();
        for unread in ["no-such-file", folder] {
            for files in [[unread, &small()], [&verb.grow(), unread]] {
                let message = trouble(run(&[&[verb.name], &files[..], &options].concat()));
                let told = format!("hogvax: {unread}: ");
                assert!(message.starts_with(&told), "{message}");
                assert!(!out.exists());
            }
        }
        let words = [verb.name, &verb.grow()];
        let mut command = command(&[&words[..], &verb.fuel()].concat());
        let input = File::open(folder).unwrap();
        let message = trouble(command.stdin(input).output().unwrap());
        assert!(message.contains("standard input"), "{message}");
    }
}

#[test]
fn files_that_cannot_be_written_are_told() {
    for verb in ALL {
        let folder = verb.folder("unwritten");
        let inside = folder.join("no-such-folder").join("file");
        for out in [&folder, &inside] {
            let out = out.to_str().unwrap();
            let message = trouble(verb.run_whole(&["--out", out]));
            let told = format!("hogvax: {out}: ");
            assert!(message.starts_with(&told), "{message}");
        }
        assert_eq!(fs::read_dir(&folder).unwrap().count(), 0);
    }
}

#[test]
fn a_closed_pipe_is_told() {
    for verb in ALL {
        let words = [verb.name, &verb.grow()];
        assert_closed_pipe_is_told(&[&words[..], &verb.fuel()].concat(), &T);
    }
}

#[cfg(target_os = "linux")]
#[test]
fn a_full_device_is_told() {
    for verb in ALL {
        let words = [verb.name, &verb.grow(), &small()];
        assert_full_device_is_told(&[&words[..], &verb.fuel()].concat());
    }
}
