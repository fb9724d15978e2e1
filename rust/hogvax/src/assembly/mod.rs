//! Programs as text: one record a line, as the reference writes them.
//!
//! A text has a line for each function, after it one for each of its records,
//! and after each record its parts:
//!
//! ```text
//! # Adds 1 to every label.
//! function 0 takes tree 0 gives tree
//!   Case 0
//!     Leaf
//!       Add
//!         Var 0
//!         Const 1
//!     Node
//!       Call 0 on 1
//!       Call 0 on 2
//! ```
//!
//! [`read`] gives its records, which [`pack`](crate::pack) turns into a program
//! file; [`show`] is the way back. [`explain`] says in words why the records
//! are refused, [`explain_sum`] which sum of a source run is out of range, and
//! [`misplaced`] finds a line that is indented as if it were a part of another
//! record. What a program is, and whether it is refused, is decided by the proved
//! calls alone.

mod explain;
mod indentation;
mod lines;
mod outline;
mod parse;
mod read;
pub(crate) mod records;
mod rest;
mod show;
mod sums;
mod wording;

pub use explain::{explain, first_refusal, Detail, Explanation};
pub use indentation::{misplaced, Misplaced};
pub use lines::LONGEST_TEXT;
pub use read::{read, Text};
pub use show::{show, Numbers};
pub use sums::explain_sum;
