//! The characters of a text, with their places.

use crate::{Fault, Place};

/// Editors may put it before a text, and do not show it.
const BYTE_ORDER_MARK: char = '\u{feff}';

/// The characters of a text, one after another, from its bytes.
pub struct Chars<I> {
    bytes: I,
    /// The next character; `None` at the end of the text.
    pub next: Option<char>,
    /// Where that character stands; at the end, after the last one.
    pub place: Place,
}

impl<I: Iterator<Item = u8>> Chars<I> {
    /// The text's first character is the next one.
    pub fn new(bytes: I) -> Result<Chars<I>, Fault> {
        let place = Place { line: 1, column: 1 };
        let mut chars = Chars {
            bytes,
            next: None,
            place,
        };
        chars.next = chars.read()?;
        if chars.next == Some(BYTE_ORDER_MARK) {
            chars.next = chars.read()?;
        }
        Ok(chars)
    }

    /// Goes on to the character after the next one.
    pub fn advance(&mut self) -> Result<(), Fault> {
        match self.next {
            None => return Ok(()),
            Some('\n') => {
                self.place.line += 1;
                self.place.column = 1;
            }
            Some(_) => self.place.column += 1,
        }
        self.next = self.read()?;
        Ok(())
    }

    fn read(&mut self) -> Result<Option<char>, Fault> {
        match self.bytes.next() {
            None => Ok(None),
            Some(byte) if byte.is_ascii() => Ok(Some(char::from(byte))),
            Some(byte) => match self.read_long(byte) {
                None => Err(self.fault(format!("this is not UTF-8: byte {byte:#04x}"))),
                character => Ok(character),
            },
        }
    }

    /// The character of several bytes that begins so; `None` if none does.
    fn read_long(&mut self, first: u8) -> Option<char> {
        let mut bytes = [first, 0, 0, 0];
        let bytes = &mut bytes[..length(first)?];
        for byte in &mut bytes[1..] {
            *byte = self.bytes.next()?;
        }
        std::str::from_utf8(bytes).ok()?.chars().next()
    }

    /// What is wrong where the next character stands.
    pub fn fault(&self, message: impl Into<String>) -> Fault {
        Fault {
            place: self.place,
            message: message.into(),
        }
    }
}

/// How many bytes a character has in UTF-8 that begins so and is not ASCII.
fn length(first: u8) -> Option<usize> {
    match first {
        0xc2..=0xdf => Some(2),
        0xe0..=0xef => Some(3),
        0xf0..=0xf4 => Some(4),
        _ => None,
    }
}
