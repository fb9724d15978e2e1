//! Texts laid out at random, all of which a reader has to take.

use hogvax::Place;
use reference::{Program, Random};

use super::written::{lines, Line};

/// What a layout may have; a writer counts how often it had each.
const CHOICES: [&str; 11] = [
    "a byte-order mark",
    "a line of comment",
    "a blank line",
    "a comment behind a record",
    "a record's number",
    "a number with zeros before it",
    "a tab",
    "no indentation",
    "CRLF",
    "a comma with no blank behind it",
    "no end of the last line",
];

/// Writes texts.
pub struct Writer {
    random: Random,
    counts: [usize; CHOICES.len()],
}

/// A text, and where its records stand.
pub struct Laid {
    pub text: String,
    pub places: Vec<Place>,
}

impl Writer {
    pub fn new(seed: u64) -> Writer {
        Writer {
            random: Random::new(seed),
            counts: [0; CHOICES.len()],
        }
    }

    /// All that a layout may have was had.
    pub fn assert_all_chosen(&self) {
        for (choice, count) in CHOICES.iter().zip(self.counts) {
            assert!(count > 0, "{choice}");
        }
    }

    /// Whether this one has it, once in so many times.
    fn chooses(&mut self, choice: &str, of: usize) -> bool {
        let chosen = self.random.below(of) == 0;
        let index = CHOICES.iter().position(|&other| other == choice).unwrap();
        self.counts[index] += usize::from(chosen);
        chosen
    }

    /// A program in some layout.
    pub fn write(&mut self, program: &Program) -> Laid {
        let lines = lines(program);
        let mark = self.chooses("a byte-order mark", 4);
        let mut text = if mark { "\u{feff}" } else { "" }.to_owned();
        let mut number = 1;
        let mut places = vec![None; 1 + lines.len()];
        for line in &lines {
            number += self.others(&mut text);
            let (words, column) = self.line(line);
            let place = Place {
                line: number,
                column,
            };
            places[line.record] = Some(place);
            text += &words;
            text += self.line_end();
            number += 1;
        }
        places[0] = places[1];
        if self.chooses("no end of the last line", 3) {
            text.truncate(text.trim_end_matches(['\r', '\n']).len());
        }
        Laid {
            text,
            places: places.into_iter().flatten().collect(),
        }
    }

    /// Lines that have no record; how many there are.
    fn others(&mut self, text: &mut String) -> usize {
        let mut count = 0;
        if self.chooses("a line of comment", 12) {
            *text += "  # Tips, forks and \u{201e}names\u{201c}.";
            *text += self.line_end();
            count += 1;
        }
        if self.chooses("a blank line", 12) {
            *text += self.blanks();
            *text += self.line_end();
            count += 1;
        }
        count
    }

    /// The line of a record, and the column of its first word.
    fn line(&mut self, line: &Line) -> (String, usize) {
        let mut words = String::new();
        if !self.chooses("no indentation", 3) {
            words += &self.blanks().repeat(1 + line.steps % 8);
        }
        if self.chooses("a record's number", 3) {
            if self.chooses("a number with zeros before it", 8) {
                words += "00";
            }
            words += &line.record.to_string();
            words += self.blanks();
        }
        let column = words.chars().count() + 1;
        for (place, word) in line.text.split(' ').enumerate() {
            if place > 0 && !(words.ends_with(',') && self.no_blank()) {
                words += self.blanks();
            }
            words += word;
        }
        if self.chooses("a comment behind a record", 6) {
            words += self.random.pick(&["#", " # Case 0 # more", "\t#\u{e4}"]);
        }
        (words, column)
    }

    fn no_blank(&mut self) -> bool {
        self.chooses("a comma with no blank behind it", 3)
    }

    fn blanks(&mut self) -> &'static str {
        if self.chooses("a tab", 5) {
            return "\t";
        }
        self.random.pick(&[" ", "  ", "    "])
    }

    fn line_end(&mut self) -> &'static str {
        if self.chooses("CRLF", 3) {
            return "\r\n";
        }
        "\n"
    }
}
