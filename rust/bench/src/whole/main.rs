//! The whole: the library's `run` beside the plain stream machine and an
//! evaluation on trees in memory, time and peak memory, over longer and longer
//! inputs. Prints tables and writes a picture of them.

#![forbid(unsafe_code)]

mod compare;
mod inputs;
mod memory;
mod picture;
// The same file as in the stream machine's benchmark. Compiled into a library
// for both, it takes 7 % more machine instructions.
#[path = "../machine/safe.rs"]
mod safe;
mod tables;
#[cfg(test)]
mod tests;
mod times;
mod ways;

use std::env;
use std::ffi::{OsStr, OsString};
use std::path::{Path, PathBuf};
use std::process::ExitCode;

use bench::programs::Program;

use inputs::MEGABYTES;
use ways::{Way, WAYS};

/// What the words on the command line ask for.
enum Asked {
    /// To measure everything, and write the picture to this file.
    Everything(PathBuf),
    /// To go a way once over an input of so many MB, and tell the memory.
    Memory(Way, Program, usize),
}

/// `None` if the words ask for nothing that there is.
fn asked(words: &[OsString]) -> Option<Asked> {
    match words {
        [] => Some(Asked::Everything(usual_file())),
        [file] if !file.as_encoded_bytes().starts_with(b"-") => {
            Some(Asked::Everything(PathBuf::from(file)))
        }
        [word, way, program, megabytes] if word == memory::WORD => {
            asked_memory(way, program, megabytes)
        }
        _ => None,
    }
}

fn asked_memory(way: &OsStr, program: &OsStr, megabytes: &OsStr) -> Option<Asked> {
    let way = WAYS.into_iter().find(|one| way == one.word())?;
    let mut programs = inputs::programs().into_iter();
    let program = programs.find(|one| program == one.name)?;
    let mut sizes = MEGABYTES.into_iter();
    let megabytes = sizes.find(|one| megabytes == OsStr::new(&one.to_string()))?;
    Some(Asked::Memory(way, program, megabytes))
}

/// `docs/benchmarks.svg` of the repository.
fn usual_file() -> PathBuf {
    let root = Path::new(env!("CARGO_MANIFEST_DIR")).join("../..");
    root.join("docs").join("benchmarks.svg")
}

fn main() -> ExitCode {
    let words: Vec<OsString> = env::args_os().skip(1).collect();
    match asked(&words) {
        Some(Asked::Everything(file)) => {
            if let Err(error) = compare::everything(&file) {
                eprintln!("bench-whole: {}: {error}", file.display());
                return ExitCode::from(2);
            }
        }
        Some(Asked::Memory(way, program, megabytes)) => {
            if let Some(used) = memory::once(way, &program, inputs::tips(megabytes)) {
                println!("{}", used.line());
            }
        }
        None => {
            eprintln!("bench-whole: usage: bench-whole [FILE], where FILE gets the picture");
            return ExitCode::from(2);
        }
    }
    ExitCode::SUCCESS
}
