//! Why a program is refused, in words.

use crate::Refused;

use super::outline::Outline;
use super::wording::grouped;

mod bound;
mod here;
mod kinds;
mod pass_one;
mod pass_two;
mod rows;
mod trees;

/// Why a program is refused, in words.
#[derive(Clone, Debug, PartialEq, Eq)]
pub struct Explanation {
    /// The record at which the refusal stands.
    pub record: usize,
    /// What is wrong there: one line that begins in lower case and has no full
    /// stop.
    pub message: String,
    /// What is known besides, a line each.
    pub details: Vec<Detail>,
}

/// Something that is known besides.
#[derive(Clone, Debug, PartialEq, Eq)]
pub struct Detail {
    /// The record that it speaks of, if any.
    pub record: Option<usize>,
    pub text: String,
}

/// Why [`pack`](crate::pack) or [`check_records`](crate::check_records)
/// refuses these records. Number and position are theirs; this says in words what
/// stands there. Where they are not those of these records, or none of 4 to
/// 12, it is a general sentence.
///
/// ```
/// use hogvax::assembly::explain;
///
/// // One function, which gives a number, and its only node, Const 5: its
/// // tree is never taken.
/// let records = [
///     1, 1, 1, 0, 0, 0, 0, 0, //
///     0, 0, 1, 0, 0, 0, 0, 0, //
///     0, 0, 0, 0, 5, 0, 0, 0,
/// ];
/// let refused = hogvax::check_records(&records).unwrap_err();
/// let explanation = explain(&records, refused);
/// assert_eq!(explanation.record, 2);
/// assert!(explanation.message.starts_with("function 0 ends with a tree pending"));
/// assert_eq!(explanation.details[0].text, "left: tree 0");
/// ```
pub fn explain(records: &[u8], refused: Refused) -> Explanation {
    match search(records) {
        Err(found) if found.refused() == refused => found.explanation,
        _ => general(refused),
    }
}

/// The refusal that [`explain`] finds by itself, if any. Explanations are
/// right as far as this is what the proved check answers, which tests compare.
#[doc(hidden)]
pub fn first_refusal(records: &[u8]) -> Option<Refused> {
    search(records).err().map(|found| found.refused())
}

/// Looks for the first fault, each row of the reference's table being finished
/// before the next. The passes come last: they walk no more than 1,024 nodes.
fn search(records: &[u8]) -> Result<(), Found> {
    rows::header(records)?;
    let program = Outline::new(records);
    rows::functions(records, &program)?;
    rows::nodes(&program)?;
    rows::prefix_form(&program)?;
    pass_one::check(&program)?;
    pass_two::check(&program)
}

/// A refusal's number and what is said of it. Its position is the record.
struct Found {
    number: u32,
    explanation: Explanation,
}

impl Found {
    fn new(number: u32, record: usize, message: impl Into<String>) -> Found {
        let explanation = Explanation {
            record,
            message: message.into(),
            details: Vec::new(),
        };
        Found {
            number,
            explanation,
        }
    }

    /// A fault that no text has.
    fn general(number: u32, record: usize) -> Found {
        let refused = Refused {
            number,
            position: record as u64,
        };
        Found::new(number, record, general(refused).message)
    }

    fn with(mut self, detail: Detail) -> Found {
        self.explanation.details.push(detail);
        self
    }

    /// With these, and no more than a reader looks through.
    fn with_all(mut self, details: Vec<Detail>) -> Found {
        const MOST: usize = 16;
        let more = details.len().saturating_sub(MOST);
        self.explanation
            .details
            .extend(details.into_iter().take(MOST));
        if more == 0 {
            return self;
        }
        self.with(Detail::new(format!("and {} more", grouped(more))))
    }

    fn refused(&self) -> Refused {
        Refused {
            number: self.number,
            position: self.explanation.record as u64,
        }
    }
}

impl Detail {
    pub(super) fn new(text: impl Into<String>) -> Detail {
        Detail {
            record: None,
            text: text.into(),
        }
    }

    /// Of this record.
    pub(super) fn of(record: usize, text: impl Into<String>) -> Detail {
        Detail {
            record: Some(record),
            text: text.into(),
        }
    }
}

/// What a refusal's number alone says.
pub(super) fn general(refused: Refused) -> Explanation {
    let message = match refused.number {
        4 => "the header is not that of these records",
        5 => "a field of this function is wrong",
        6 => "this is no record of a program",
        7 => "the records of this function are not exactly one expression",
        8 => "a number stands where a tree is expected, or a tree where a number is",
        9 => "this name is not bound here",
        10 => "no more than 16 numbers (words) may be held at a time",
        11 => "the trees are not taken in order, each once",
        12 => "no more than 16 trees may be pending",
        21 => "the sum of its two numbers is out of range",
        _ => "the program is refused",
    };
    Explanation {
        record: usize::try_from(refused.position).unwrap_or(usize::MAX),
        message: message.to_owned(),
        details: Vec::new(),
    }
}
