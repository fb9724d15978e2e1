//! The text reader: the records of a program's text.

use super::lines::{lines, Word};
use super::parse;
use super::records::{function_line, Record};
use super::rest::decimal;
use crate::{Fault, Place};

/// The most functions and the most nodes that a header can count. A program
/// has fewer; what is too much for it is left to [`pack`](crate::pack).
const MOST_FUNCTIONS: usize = u8::MAX as usize;
const MOST_NODES: usize = u16::MAX as usize;

/// The edition of the records.
const EDITION: u8 = 1;

/// What is said of a record that no function line stands before.
const BEGINNING: &str = "\
a text begins with a function line: function 0 takes tree 0 gives tree";

/// A program's text that was read.
#[derive(Clone, Debug, PartialEq, Eq)]
pub struct Text {
    /// The records, 8 bytes each, the header first: what
    /// [`pack`](crate::pack) takes.
    pub records: Vec<u8>,
    /// Where each record stands in the text: its first word, not its number.
    /// The header, which has no line, stands where function 0 does, or at 1:1
    /// if there is no function.
    pub places: Vec<Place>,
}

impl Text {
    /// The record with this number as a text has it: `Call 0 on 1`, or
    /// `function 0 takes tree 0 gives tree`. None for the header, which has no
    /// line, and where there is no record.
    ///
    /// ```
    /// let text = b"function 0 takes tree 0 gives number  # 5\n  Const 5";
    /// let text = hogvax::assembly::read(text).unwrap();
    /// let line = "function 0 takes tree 0 gives number";
    /// assert_eq!(text.line(0), None);
    /// assert_eq!(text.line(1).as_deref(), Some(line));
    /// assert_eq!(text.line(2).as_deref(), Some("Const 5"));
    /// assert_eq!(text.line(3), None);
    /// ```
    pub fn line(&self, number: usize) -> Option<String> {
        let header = self.record(0)?;
        let record = self.record(number)?;
        match number.checked_sub(1)? {
            function if function < usize::from(header.a) => Some(function_line(function, record)),
            _ => Some(record.to_string()),
        }
    }

    fn record(&self, number: usize) -> Option<Record> {
        Record::nth(&self.records, number)
    }
}

/// The records of a program's text, or the first thing in it that can't be put
/// into records, with its place. Whether they are a program's, and whether its
/// names, types and order are right, is not looked at here: see
/// [`pack`](crate::pack) and [`check`](crate::check).
///
/// A line is a function line or a record; `#` and what follows it are a
/// comment. A line may begin with the number of its record, counted from the
/// header, record 0; a wrong number is refused. Indentation is free.
///
/// ```
/// let text = b"\
/// ## The sum of all labels.
/// function 0 takes tree 0 gives number
///   Case 0
///     Var 0
///     Add
///       Call 0 on 1
///       Call 0 on 2
/// ";
/// let text = hogvax::assembly::read(text).unwrap();
/// assert_eq!(text.records.len(), 8 * 7);
/// assert_eq!(text.places[5].to_string(), "6:7");
/// let file = hogvax::pack(&text.records).unwrap();
/// assert_eq!(hogvax::check(&file), Ok(()));
///
/// let text = b"function 0 takes tree 0 gives number\n  Case O";
/// let fault = hogvax::assembly::read(text).unwrap_err();
/// let message = "2:8: record 2: the name of a tree is 0 to 255, not 'O'";
/// assert_eq!(fault.to_string(), message);
/// ```
pub fn read(text: &[u8]) -> Result<Text, Fault> {
    let lines = lines(text)?;
    let lines: Vec<Line> = lines.iter().map(|words| Line::new(words)).collect();
    let functions = lines.iter().filter(|line| line.is_a_function()).count();
    let mut reader = Reader {
        first_node: 1 + functions,
        functions: Vec::new(),
        nodes: Vec::new(),
        misnumbered: None,
    };
    for line in &lines {
        reader.read(line)?;
    }
    match reader.misnumbered {
        Some(fault) => Err(fault),
        None => Ok(reader.text()),
    }
}

/// The words of a line, of which the first may be a record's number.
struct Line<'a> {
    number: Option<&'a Word<'a>>,
    words: &'a [Word<'a>],
}

impl<'a> Line<'a> {
    fn new(words: &'a [Word<'a>]) -> Line<'a> {
        match words.split_first() {
            Some((first, rest)) if first.text.bytes().all(|byte| byte.is_ascii_digit()) => Line {
                number: Some(first),
                words: rest,
            },
            _ => Line {
                number: None,
                words,
            },
        }
    }

    fn is_a_function(&self) -> bool {
        self.words.first().is_some_and(parse::begins_a_function)
    }
}

/// The records read so far, each with its place.
struct Reader {
    /// The number of the first node's record: it comes after the functions
    /// of the whole text.
    first_node: usize,
    functions: Vec<(Record, Place)>,
    nodes: Vec<(Record, Place)>,
    /// The first line with a wrong number. It is reported after all else, because
    /// a line that can't be read may be why later ones are counted wrongly.
    misnumbered: Option<Fault>,
}

impl Reader {
    fn read(&mut self, line: &Line) -> Result<(), Fault> {
        let function = line.is_a_function();
        let own = match function {
            true => 1 + self.functions.len(),
            false => self.first_node + self.nodes.len(),
        };
        let read = match (line.words.split_first(), line.number) {
            (Some((name, words)), _) if function => self.function(name, words),
            (Some((name, words)), _) => self.node(name, words),
            (None, Some(number)) => Err(number.fault("a number without a record".to_owned())),
            (None, None) => Ok(()),
        };
        read.map_err(|fault| in_record(own, fault))?;
        self.compare(line.number, own);
        Ok(())
    }

    fn function(&mut self, name: &Word, words: &[Word]) -> Result<(), Fault> {
        let turn = self.functions.len();
        if turn == MOST_FUNCTIONS {
            let message = "a header counts up to 255 functions, and this is one more";
            return Err(name.fault(message.to_owned()));
        }
        let record = parse::function(name, words, turn)?;
        self.functions.push((record, name.place));
        Ok(())
    }

    fn node(&mut self, name: &Word, words: &[Word]) -> Result<(), Fault> {
        let Some((function, _)) = self.functions.last_mut() else {
            return Err(name.fault(BEGINNING.to_owned()));
        };
        if self.nodes.len() == MOST_NODES {
            let message = "a header counts up to 65535 nodes, and this is one more";
            return Err(name.fault(message.to_owned()));
        }
        let record = parse::node(name, words)?;
        self.nodes.push((record, name.place));
        // Its field b counts its nodes.
        function.b += 1;
        Ok(())
    }

    /// Compares the number that a line gives with its record's own.
    fn compare(&mut self, given: Option<&Word>, own: usize) {
        let wrong = given.filter(|given| decimal(given.text) != Some(own));
        if let (Some(given), None) = (wrong, &self.misnumbered) {
            let number = given.quoted();
            let message = format!(
                "the number given is {number}: a line before this one is lost, \
                 added or moved (numbers may be left out)"
            );
            self.misnumbered = Some(in_record(own, given.fault(message)));
        }
    }

    /// All records, and the header before them.
    fn text(self) -> Text {
        let header = Record {
            kind: EDITION,
            a: self.functions.len() as u8,
            b: self.nodes.len() as u16,
            i: 0,
        };
        let first = self.functions.first().map(|&(_, place)| place);
        let place = first.unwrap_or(Place { line: 1, column: 1 });
        let mut all = vec![(header, place)];
        all.extend(self.functions);
        all.extend(self.nodes);
        Text {
            records: all
                .iter()
                .flat_map(|(record, _)| record.to_bytes())
                .collect(),
            places: all.iter().map(|&(_, place)| place).collect(),
        }
    }
}

/// The fault of a line that has this record.
fn in_record(number: usize, fault: Fault) -> Fault {
    let Fault { place, message } = fault;
    let message = format!("record {number}: {message}");
    Fault { place, message }
}
