//! Words that are wrong usage, and standard output that can't be written.

use super::help::VERBS;
use super::*;

#[test]
fn wrong_usage_is_told() {
    let tree = "usage: hogvax tree [FILE]";
    let pack = "usage: hogvax pack [FILE] [--out FILE]";
    let unpack = "usage: hogvax unpack [FILE] [--out FILE]";
    let check = "usage: hogvax check [FILE]";
    let listing = "usage: hogvax listing [FILE]";
    let why = "usage: hogvax why NUMBER";
    for (words, part) in [
        (&["trees"][..], "no verb 'trees'"),
        (&[""], "no verb ''"),
        (&["--version"], "no verb '--version'"),
        (&["help", "trees"], "no verb 'trees'"),
        (&["help", "tree", "why"], "usage: hogvax help [VERB]"),
        (&["tree", "a", "b"], tree),
        (&["tree", "--fast"], tree),
        (&["tree", "--out", "a"], tree),
        (&["pack", "a", "b"], pack),
        (&["pack", "--out"], pack),
        (&["pack", "a", "--out"], pack),
        (&["pack", "--out", "--fast"], pack),
        (&["pack", "--out", "a", "--out", "a"], pack),
        (&["unpack", "a", "b", "--out", "c"], unpack),
        (&["unpack", "-o", "a"], unpack),
        (&["unpack", "--out=a"], unpack),
        (&["check", "a", "b"], check),
        (&["check", "--fast"], check),
        (&["check", "--out", "a"], check),
        (&["listing", "a", "b"], listing),
        (&["listing", "--fast"], listing),
        (&["listing", "--out", "a"], listing),
        (&["why"], why),
        (&["why", "1", "2"], why),
        (&["why", ""], why),
        (&["why", "-1"], why),
        (&["why", "+1"], why),
        (&["why", "fifteen"], why),
    ] {
        let message = trouble(run(words));
        assert!(message.contains(part), "{message}");
    }
}

#[cfg(unix)]
#[test]
fn words_need_not_be_text() {
    use std::ffi::OsStr;
    use std::os::unix::ffi::OsStrExt;
    let word = OsStr::from_bytes(b"\xff");
    trouble(command(&[]).arg(word).output().unwrap());
    for verb in VERBS {
        trouble(command(&[verb]).arg(word).output().unwrap());
    }
}

// Standard output that can't be written

/// Verbs that print without data.
const PRINTING: [&[&str]; 5] = [
    &["help"],
    &["why", "1"],
    &["tree"],
    &["check"],
    &["listing"],
];

#[cfg(unix)]
#[test]
fn a_broken_pipe_is_no_panic() {
    for words in PRINTING {
        let mut child = piped(words);
        drop(child.stdout.take());
        drop(child.stdin.take());
        let output = child.wait_with_output().unwrap();
        // Where the verb has printed before the pipe broke, all was well.
        if output.status.code() != Some(0) {
            assert!(trouble(output).contains("standard output"));
        }
    }
}

#[cfg(target_os = "linux")]
#[test]
fn a_full_device_is_told() {
    for words in PRINTING {
        let full = File::options().write(true).open("/dev/full").unwrap();
        let output = command(words).stdout(full).output().unwrap();
        assert!(trouble(output).contains("standard output"));
    }
}
