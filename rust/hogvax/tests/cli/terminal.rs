//! A terminal for the command line, which `script` gives it.

use super::*;

/// What a test says that finds no terminal.
const NEEDED: &str = "the tests need `script` and its terminals: install util-linux";

/// A word for the shell.
pub fn quoted(word: &str) -> String {
    format!("'{}'", word.replace('\'', "'\\''"))
}

/// What a line of the shell prints in a terminal.
pub fn in_terminal(line: &str) -> String {
    let probe = scripted("test -t 1 && test -t 2 && echo yes");
    assert_eq!(probe, "yes\r\n", "{NEEDED}");
    scripted(line)
}

fn scripted(line: &str) -> String {
    let mut script = Command::new("script");
    script
        .args(["-qec", line, "/dev/null"])
        .stdin(Stdio::null());
    let output = script.output();
    let output = output.unwrap_or_else(|error| panic!("script: {error}; {NEEDED}"));
    String::from_utf8(output.stdout).unwrap()
}
