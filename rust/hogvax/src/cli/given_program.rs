//! Programs that verbs are given, each as a program file or as a text.

use std::ffi::OsStr;

use hogvax::assembly::{self, Explanation, Text, LONGEST_TEXT};
use hogvax::{Refused, Sourced};

use crate::exit_status::Trouble;
use crate::input::{self, Input};
use crate::output;

/// What a verb is given as its program.
pub enum Given {
    Program(Program),
    /// A text that can't be read; the line that reports it.
    Unread(String),
}

/// A program, or other bytes that a verb runs.
pub struct Program {
    /// The bytes of its file; why there are none, if it is a text whose
    /// records are no program's.
    pub file: Result<Vec<u8>, Refused>,
    /// How messages call the file that it was given as.
    name: String,
    /// The text, if it was given as one.
    text: Option<Text>,
}

/// A text, and how messages call its file.
struct NamedText<'a> {
    name: &'a str,
    text: &'a Text,
}

/// The program in a file. So many bytes of a program file decide; those after them
/// need not be read. A text may be longer.
pub fn load(file: &OsStr, longest: usize) -> Result<Given, Trouble> {
    let bytes = read(file, longest)?;
    Ok(match is_text(&bytes) {
        true => assemble(file, &bytes),
        false => Given::Program(Program::from_file(file, bytes)),
    })
}

/// The program of a text, whatever its file holds.
pub fn load_text(file: &OsStr) -> Result<Given, Trouble> {
    Ok(assemble(file, &read(file, hogvax::LONGEST_FILE + 1)?))
}

/// The first bytes of a file, so many or as many as there are. Where these are
/// a text, all that it may have, and one byte more.
fn read(file: &OsStr, longest: usize) -> Result<Vec<u8>, Trouble> {
    let (mut input, mut bytes) = (Input::open(file)?, Vec::new());
    input.read_more(&mut bytes, longest)?;
    if bytes.len() == longest && is_text(&bytes) {
        let most = (LONGEST_TEXT + 1).saturating_sub(longest);
        input.read_more(&mut bytes, most)?;
    }
    Ok(bytes)
}

/// Whether these bytes are a text. A program file has zero bytes in its
/// header, and an empty file is taken for a program file.
fn is_text(bytes: &[u8]) -> bool {
    !bytes.is_empty() && !bytes.contains(&0)
}

/// The program of these bytes of a file, which are a text.
fn assemble(file: &OsStr, bytes: &[u8]) -> Given {
    let name = input::name(file);
    match assembly::read(bytes) {
        Err(fault) => Given::Unread(format!("refused {name}:{fault}")),
        Ok(text) => Given::Program(Program {
            file: hogvax::pack(&text.records),
            name,
            text: Some(text),
        }),
    }
}

impl Program {
    pub fn from_file(file: &OsStr, bytes: Vec<u8>) -> Program {
        Program {
            file: Ok(bytes),
            name: input::name(file),
            text: None,
        }
    }

    /// Reports on standard error what there is to say of a text after the verb's
    /// answer: why the program is refused, if it is, and a line that does not
    /// stand where its indentation says.
    pub fn tell_of_text(&self, refused: Option<Refused>) -> Result<(), Trouble> {
        let Some(text) = &self.text else {
            return Ok(());
        };
        let named = self.named(text);
        if let Some(refused) = refused.filter(is_of_program) {
            let explanation = assembly::explain(&text.records, refused);
            output::tell(&named.explained(&explanation))?;
        }
        if let Some(misplaced) = assembly::misplaced(text) {
            let (place, message) = (named.place(misplaced.record), misplaced.message);
            output::tell(&format!("notice: {place}: {message}"))?;
        }
        Ok(())
    }

    /// Which sum is out of range in its source run, with this answer, on the tree
    /// that begins the input. A program file has no lines to be named.
    pub fn explained_sum(&self, input: &[u8], sourced: &Sourced) -> Option<String> {
        let file = self.file.as_ref().ok()?;
        let records = hogvax::unpack(file).ok()?;
        let explanation = assembly::explain_sum(&records, input, sourced);
        let places = Vec::new();
        let unplaced = Text { records, places };
        let text = self.text.as_ref().unwrap_or(&unplaced);
        Some(self.named(text).explained(&explanation))
    }

    fn named<'a>(&'a self, text: &'a Text) -> NamedText<'a> {
        let name = &self.name;
        NamedText { name, text }
    }
}

/// Whether a refusal is one of a program's records; others are the run's.
fn is_of_program(refused: &Refused) -> bool {
    (4..=12).contains(&refused.number)
}

impl NamedText<'_> {
    /// Where a record stands in the text.
    fn place(&self, record: usize) -> String {
        let name = self.name;
        match self.text.places.get(record) {
            Some(place) => format!("{name}:{place}"),
            None => name.to_owned(),
        }
    }

    /// An explanation with its place in the text, and a line for each detail.
    fn explained(&self, explanation: &Explanation) -> String {
        let number = explanation.record;
        let record = match self.text.line(number) {
            Some(line) => format!("'{line}'"),
            None => "the header".to_owned(),
        };
        let (place, message) = (self.place(number), &explanation.message);
        let mut lines = format!("{place}: record {number}, {record}: {message}");
        for detail in &explanation.details {
            lines += &format!("\n  {}", detail.text);
            if let Some(line) = detail.record.and_then(|record| self.line_of(record)) {
                lines += &format!(" (line {line})");
            }
        }
        lines
    }

    /// The line of a record in the text; the header has none.
    fn line_of(&self, record: usize) -> Option<usize> {
        let place = self.text.places.get(record).filter(|_| record > 0)?;
        Some(place.line)
    }
}

#[cfg(test)]
mod tests {
    use hogvax::assembly::Detail;

    use super::*;

    fn detail(record: Option<usize>) -> Detail {
        let text = format!("{record:?}");
        Detail { record, text }
    }

    /// A line is named where there is one: the header has none.
    #[test]
    fn details_have_the_lines_of_their_records() {
        let text = assembly::read(b"\n\nfunction 0 takes tree 0 gives number\n  Const 5").unwrap();
        let (name, text) = ("five.txt", &text);
        let explanation = Explanation {
            record: 0,
            message: "so".to_owned(),
            details: [None, Some(0), Some(1), Some(2), Some(3)]
                .map(detail)
                .into(),
        };
        let told = "\
five.txt:3:1: record 0, the header: so
  None
  Some(0)
  Some(1) (line 3)
  Some(2) (line 4)
  Some(3)";
        assert_eq!(NamedText { name, text }.explained(&explanation), told);
    }
}
