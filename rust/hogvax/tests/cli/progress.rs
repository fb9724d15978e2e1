//! What a long call tells while it goes on.

use std::thread;
use std::time::Duration;

#[cfg(target_os = "linux")]
use super::terminal::{in_terminal, quoted};
use super::*;

/// Longer than the second before which nothing is reported.
const LONG: Duration = Duration::from_millis(1_500);

/// Standard error is no terminal here: it has the answer alone.
#[test]
fn progress_is_not_told_to_a_pipe() {
    let mut child = piped(&["run", &sample("programs/sum.program")]);
    thread::sleep(LONG);
    child.stdin.take().unwrap().write_all(&T).unwrap();
    let output = child.wait_with_output().unwrap();
    let line = "ended units 17 read 11 written 0 number 12\n";
    assert_gives(&output, 0, b"12\n", line);
}

#[cfg(target_os = "linux")]
#[test]
fn progress_is_told_to_a_terminal_and_wiped() {
    let (hogvax, tokens) = (quoted(HOGVAX), quoted(&sample("small.tokens")));
    let program = quoted(&sample("programs/sum.program"));
    let line = format!("(sleep 3; cat {tokens}) | {hogvax} run {program}");
    let told = in_terminal(&line);
    assert!(told.starts_with("\rhogvax: reading, 1 s\x1b[K\r"), "{told}");
    let answer = "12\r\nended units 17 read 11 written 0 number 12\r\n";
    assert!(told.ends_with(&format!("\r\x1b[K{answer}")), "{told}");
}
