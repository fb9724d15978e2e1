//! How a verb ends, which its exit status says.

/// A verb that did its work: exit status 0, or 1 if the answer is a refusal.
pub enum Ended {
    Done,
    Refused,
}

/// Wrong usage, or a file that can't be read or written: a message, and exit
/// status 2.
pub struct Trouble(pub String);

pub type Outcome = Result<Ended, Trouble>;
