//! Input. `-` stands for standard input.

use std::ffi::OsStr;
use std::fs::File;
use std::io::{self, BufReader, Read};
use std::path::Path;

use crate::exit_status::Trouble;
use crate::progress::Progress;

/// So many bytes are read at a time, and then counted.
const CHUNK: usize = 1 << 20;

/// The first bytes of a file, so many or as many as there are.
pub fn read_at_most(file: &OsStr, most: usize) -> Result<Vec<u8>, Trouble> {
    Ok(Opening::read(file, most)?.bytes)
}

/// An open file, or standard input. It may be endless, so it is read no further
/// than the answer needs.
pub struct Input {
    name: String,
    source: Box<dyn Read>,
}

impl Input {
    pub fn open(file: &OsStr) -> Result<Input, Trouble> {
        let name = name(file);
        let source: Box<dyn Read> = if file == "-" {
            Box::new(io::stdin().lock())
        } else {
            let opened = File::open(file);
            Box::new(opened.map_err(|error| trouble(&name, error))?)
        };
        Ok(Input { name, source })
    }

    /// Adds so many bytes, or as many as there are, to those read before.
    /// Whether there were any.
    pub fn read_more(&mut self, bytes: &mut Vec<u8>, most: usize) -> Result<bool, Trouble> {
        let reading = Progress::of("reading");
        let (before, end) = (bytes.len(), bytes.len().saturating_add(most));
        loop {
            let chunk = CHUNK.min(end - bytes.len());
            // Where memory is gone, reading would end the program.
            let room = bytes.try_reserve(chunk).map_err(io::Error::from);
            let count = room
                .and_then(|()| (&mut self.source).take(chunk as u64).read_to_end(bytes))
                .map_err(|error| trouble(&self.name, error))?;
            reading.count(bytes.len());
            if count < CHUNK {
                return Ok(bytes.len() > before);
            }
        }
    }

    /// Its bytes one by one.
    pub fn bytes(self) -> Bytes {
        let source = BufReader::with_capacity(1 << 16, self.source);
        Bytes {
            name: self.name,
            bytes: source.bytes(),
            failed: None,
        }
    }
}

/// The opening bytes of an input, of which there may be more.
pub struct Opening {
    input: Input,
    bytes: Vec<u8>,
}

impl Opening {
    /// So many bytes of a file, or as many as there are.
    pub fn read(file: &OsStr, most: usize) -> Result<Opening, Trouble> {
        let (mut input, mut bytes) = (Input::open(file)?, Vec::new());
        input.read_more(&mut bytes, most)?;
        Ok(Opening { input, bytes })
    }

    pub fn bytes(&self) -> &[u8] {
        &self.bytes
    }

    /// How messages call the input.
    pub fn name(&self) -> &str {
        &self.input.name
    }

    /// What a call says of these bytes. It is made again over twice as many each
    /// time that it needs more and there are more.
    pub fn answer<A>(
        &mut self,
        needs_more: impl Fn(&A) -> bool,
        mut call: impl FnMut(&[u8]) -> Result<A, Trouble>,
    ) -> Result<A, Trouble> {
        loop {
            let answer = call(&self.bytes)?;
            let as_many = self.bytes.len();
            if !needs_more(&answer) || !self.input.read_more(&mut self.bytes, as_many)? {
                return Ok(answer);
            }
        }
    }
}

/// How messages call a file.
pub fn name(file: &OsStr) -> String {
    if file == "-" {
        "standard input".to_owned()
    } else {
        Path::new(file).display().to_string()
    }
}

fn trouble(name: &str, error: io::Error) -> Trouble {
    Trouble(format!("{name}: {error}"))
}

/// The bytes of an input, up to its end or to where it can't be read.
pub struct Bytes {
    name: String,
    bytes: io::Bytes<BufReader<Box<dyn Read>>>,
    failed: Option<io::Error>,
}

impl Iterator for Bytes {
    type Item = u8;

    fn next(&mut self) -> Option<u8> {
        match self.bytes.next()? {
            Ok(byte) => Some(byte),
            Err(error) => {
                self.failed = Some(error);
                None
            }
        }
    }
}

impl Bytes {
    /// Why the bytes ended, if it was not the end of the input.
    pub fn check(self) -> Result<(), Trouble> {
        match self.failed {
            None => Ok(()),
            Some(error) => Err(trouble(&self.name, error)),
        }
    }
}

#[cfg(test)]
mod tests {
    use super::*;

    fn input(length: usize) -> (Vec<u8>, Input) {
        let bytes: Vec<u8> = (0..length).map(|place| (place % 251) as u8).collect();
        let source = Box::new(io::Cursor::new(bytes.clone()));
        let name = "input".to_owned();
        (bytes, Input { name, source })
    }

    #[test]
    fn bytes_are_read_up_to_the_most_or_the_end() {
        for length in [0, 1, CHUNK - 1, CHUNK, CHUNK + 1, 3 * CHUNK] {
            for most in [0, 1, CHUNK - 1, CHUNK, CHUNK + 1, 4 * CHUNK, usize::MAX] {
                let (all, mut input) = input(length);
                let mut bytes = vec![7];
                let any = input.read_more(&mut bytes, most);
                let count = length.min(most);
                assert_eq!(any.ok(), Some(count > 0));
                assert!(bytes[1..] == all[..count], "{length} {most}");
            }
        }
    }

    /// The lengths over which a call is made that needs so many bytes.
    fn lengths(length: usize, first: usize, needs: usize) -> Vec<usize> {
        let (all, mut input) = input(length);
        let mut bytes = Vec::new();
        let mut lengths = Vec::new();
        assert!(input.read_more(&mut bytes, first).is_ok());
        let mut opening = Opening { input, bytes };
        let answer = opening.answer(
            |&had| had < needs,
            |bytes| {
                assert!(all.starts_with(bytes));
                lengths.push(bytes.len());
                Ok(bytes.len())
            },
        );
        assert_eq!(answer.ok(), lengths.last().copied());
        lengths
    }

    #[test]
    fn a_call_gets_as_much_as_it_needs_and_there_is() {
        assert_eq!(lengths(100, 10, 10), [10]);
        assert_eq!(lengths(100, 10, 11), [10, 20]);
        assert_eq!(lengths(100, 10, 41), [10, 20, 40, 80]);
        assert_eq!(lengths(100, 10, 1_000), [10, 20, 40, 80, 100]);
        assert_eq!(lengths(80, 10, 1_000), [10, 20, 40, 80]);
        assert_eq!(lengths(5, 10, 1_000), [5]);
        assert_eq!(lengths(0, 10, 1_000), [0]);
    }
}
