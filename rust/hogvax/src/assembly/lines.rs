//! A program's text as lines of words.

use crate::{Fault, Place};

/// The longest text that is read, in bytes: 1 MiB.
pub const LONGEST_TEXT: usize = 1 << 20;

/// The characters of a word that a message shows.
const SHOWN: usize = 40;

/// Editors may put it before a text, and do not show it.
const BYTE_ORDER_MARK: &[u8] = b"\xef\xbb\xbf";

/// A word of a text, and where it stands. A comma is a word of its own.
#[derive(Clone, Copy)]
pub struct Word<'a> {
    pub text: &'a str,
    pub place: Place,
}

impl Word<'_> {
    /// The place after the word.
    pub fn end(&self) -> Place {
        let Place { line, column } = self.place;
        let column = column + self.text.chars().count();
        Place { line, column }
    }

    /// The word for a message: marked off, shortened if it is long, and with
    /// escapes for characters that can't be seen.
    pub fn quoted(&self) -> String {
        let mut characters = self.text.chars();
        let mut shown = String::new();
        for character in characters.by_ref().take(SHOWN) {
            match character {
                '\'' | '"' => shown.push(character),
                _ => shown.extend(character.escape_debug()),
            }
        }
        if characters.next().is_some() {
            shown += "...";
        }
        format!("'{shown}'")
    }

    /// That something is wrong with this word.
    pub fn fault(&self, message: String) -> Fault {
        let place = self.place;
        Fault { place, message }
    }
}

/// The lines of a text, each with its words. Comments are left out, and so are
/// lines without a word.
pub fn lines(text: &[u8]) -> Result<Vec<Vec<Word<'_>>>, Fault> {
    let characters = match text.strip_prefix(BYTE_ORDER_MARK) {
        Some(rest) => characters(rest, LONGEST_TEXT - BYTE_ORDER_MARK.len())?,
        None => characters(text, LONGEST_TEXT)?,
    };
    let lines = (1..).zip(characters.split('\n'));
    let lines = lines.map(|(number, line)| words(number, line));
    Ok(lines.filter(|words| !words.is_empty()).collect())
}

/// The characters of these bytes, of which there may be so many.
fn characters(bytes: &[u8], most: usize) -> Result<&str, Fault> {
    if let Some(zero) = bytes.iter().position(|&byte| byte == 0) {
        return Err(fault_at(bytes, zero, "a zero byte, which no text has"));
    }
    if bytes.len() > most {
        let message = "the text goes on here, and it may have 1048576 bytes at most";
        return Err(fault_at(bytes, most, message));
    }
    std::str::from_utf8(bytes).map_err(|error| {
        let message = "these bytes are no character of UTF-8";
        fault_at(bytes, error.valid_up_to(), message)
    })
}

/// That something is wrong with this one of the bytes.
fn fault_at(bytes: &[u8], byte: usize, message: &str) -> Fault {
    let before = bytes.get(..byte).unwrap_or(bytes);
    let line = before.iter().filter(|&&byte| byte == b'\n').count() + 1;
    let own = before.rsplit(|&byte| byte == b'\n').next().unwrap_or(&[]);
    // The bytes 128 to 191 go on with a character.
    let begun = own.iter().filter(|&&byte| byte & 0xc0 != 0x80);
    let column = begun.count() + 1;
    let message = message.to_owned();
    Fault {
        place: Place { line, column },
        message,
    }
}

/// The words of a line. It may still have the first character of a CRLF.
fn words(number: usize, line: &str) -> Vec<Word<'_>> {
    let line = line.strip_suffix('\r').unwrap_or(line);
    let line = line.split('#').next().unwrap_or(line);
    let mut words = Vec::new();
    let mut begun: Option<(usize, Place)> = None;
    for (column, (byte, character)) in (1..).zip(line.char_indices()) {
        let place = Place {
            line: number,
            column,
        };
        let comma = character == ',';
        if !comma && character != ' ' && character != '\t' {
            begun.get_or_insert((byte, place));
            continue;
        }
        words.extend(begun.take().map(|(start, place)| {
            let text = &line[start..byte];
            Word { text, place }
        }));
        if comma {
            let text = ",";
            words.push(Word { text, place });
        }
    }
    words.extend(begun.map(|(start, place)| {
        let text = &line[start..];
        Word { text, place }
    }));
    words
}
