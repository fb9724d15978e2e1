//! Output. `-` stands for standard output.

use std::ffi::OsStr;
use std::fmt::Display;
use std::fs;
use std::io::{self, BufWriter, Write};
use std::path::Path;

use crate::exit_status::Trouble;

/// Writes data to a file, which is made or made anew.
pub fn write(file: &OsStr, data: &[u8]) -> Result<(), Trouble> {
    if file == "-" {
        return write_to(&mut io::stdout().lock(), data).map_err(trouble("standard output"));
    }
    fs::write(file, data).map_err(trouble(Path::new(file).display()))
}

/// Writes text to standard output. `print!` would panic where that fails.
pub fn print(text: &str) -> Result<(), Trouble> {
    write(OsStr::new("-"), text.as_bytes())
}

/// Writes text to standard output as it comes: it may be too long to be held.
pub fn print_long(text: &dyn Display) -> Result<(), Trouble> {
    let mut output = BufWriter::with_capacity(1 << 16, io::stdout().lock());
    let written = write!(output, "{text}").and_then(|()| output.flush());
    written.map_err(trouble("standard output"))
}

/// Writes a line to standard error, where the answer stands beside data.
pub fn tell(line: &str) -> Result<(), Trouble> {
    let line = format!("{line}\n");
    write_to(&mut io::stderr().lock(), line.as_bytes()).map_err(trouble("standard error"))
}

fn write_to(output: &mut dyn Write, bytes: &[u8]) -> io::Result<()> {
    output.write_all(bytes)?;
    output.flush()
}

/// The message of an error with the file or stream where it came up.
fn trouble(name: impl Display) -> impl FnOnce(io::Error) -> Trouble {
    move |error| Trouble(format!("{name}: {error}"))
}
