//! Names of tips and branch lengths, taken character by character: they may be
//! of any length, and none is held whole.

use std::fmt::{self, Write};

/// A character as a message shows it: visible, and no end of a line.
struct Visible(char);

impl fmt::Display for Visible {
    fn fmt(&self, f: &mut fmt::Formatter<'_>) -> fmt::Result {
        match self.0 {
            '\'' | '"' | '\\' => f.write_char(self.0),
            character => write!(f, "{}", character.escape_debug()),
        }
    }
}

/// What stands next in a text, as a message shows it.
pub fn shown(next: Option<char>) -> String {
    match next {
        None => "the end".to_owned(),
        Some('\'') => "a quote".to_owned(),
        Some(character) => format!("'{}'", Visible(character)),
    }
}

/// How many characters of a name a message shows.
const SHOWN: usize = 32;

/// How a name begins.
#[derive(Default)]
struct Start {
    characters: [char; SHOWN],
    /// How many characters the whole name has.
    length: usize,
}

impl Start {
    fn take(&mut self, character: char) {
        if let Some(place) = self.characters.get_mut(self.length) {
            *place = character;
        }
        self.length += 1;
    }
}

impl fmt::Display for Start {
    fn fmt(&self, f: &mut fmt::Formatter<'_>) -> fmt::Result {
        for &character in self.characters.iter().take(self.length) {
            write!(f, "{}", Visible(character))?;
        }
        f.write_str(if self.length > SHOWN { "..." } else { "" })
    }
}

/// The name of a tip, which is to be its label.
#[derive(Default)]
pub struct Name {
    start: Start,
    negative: bool,
    /// Its digits as a number, or the most that there is if that is more.
    size: i64,
    has_digits: bool,
    has_others: bool,
}

impl Name {
    pub fn take(&mut self, character: char) {
        match character.to_digit(10) {
            Some(digit) => {
                let tens = self.size.saturating_mul(10);
                self.size = tens.saturating_add(digit.into());
                self.has_digits = true;
            }
            None if self.start.length == 0 && matches!(character, '+' | '-') => {
                self.negative = character == '-';
            }
            None => self.has_others = true,
        }
        self.start.take(character);
    }

    /// The label that it is, or what is wrong with it.
    pub fn label(&self) -> Result<i32, String> {
        let start = &self.start;
        if self.has_others || !self.has_digits {
            return Err(format!("the tip '{start}' is not a whole number"));
        }
        let number = if self.negative { -self.size } else { self.size };
        i32::try_from(number).map_err(|_| {
            let (least, most) = (i32::MIN, i32::MAX);
            format!("the label {start} is out of range: {least} to {most}")
        })
    }
}

/// How far a decimal number is read: an optional sign, digits with an optional
/// point, and an optional exponent.
#[derive(Clone, Copy, Default)]
enum Stage {
    #[default]
    Empty,
    Sign,
    Whole,
    /// A point with no digit before it.
    Point,
    Fraction,
    ExponentMark,
    ExponentSign,
    Exponent,
    /// No decimal number begins so.
    Wrong,
}

/// A branch length.
#[derive(Default)]
pub struct Length {
    start: Start,
    stage: Stage,
}

impl Length {
    pub fn take(&mut self, character: char) {
        use Stage::*;
        self.stage = match (self.stage, character) {
            (Empty, '+' | '-') => Sign,
            (Empty | Sign | Whole, '0'..='9') => Whole,
            (Empty | Sign, '.') => Point,
            (Whole, '.') | (Point | Fraction, '0'..='9') => Fraction,
            (Whole | Fraction, 'e' | 'E') => ExponentMark,
            (ExponentMark, '+' | '-') => ExponentSign,
            (ExponentMark | ExponentSign | Exponent, '0'..='9') => Exponent,
            _ => Wrong,
        };
        self.start.take(character);
    }

    /// What is wrong with it, if it is not a decimal number.
    pub fn check(&self) -> Result<(), String> {
        match self.stage {
            Stage::Whole | Stage::Fraction | Stage::Exponent => Ok(()),
            _ => {
                let start = &self.start;
                Err(format!("the branch length '{start}' is not a number"))
            }
        }
    }
}
