//! What a run answers.

use std::fmt::Display;

use hogvax::{Ran, Refused, Sourced};

/// The answer of a run, a stream run's or a source run's. As text it is the
/// answer line.
pub trait Answer: Display {
    /// The answer of a run whose program is refused: 0 in every count.
    fn not_begun(refused: Refused) -> Self;

    /// Why the run is refused; `None` if it ended.
    fn refused(&self) -> Option<Refused>;

    /// The bytes of the output written, from its start on.
    fn written(&self) -> usize;

    /// The number given, 0 if there is none.
    fn number(&self) -> i32;
}

/// Both answers have the same fields, but for what they count.
macro_rules! answer {
    ($answer:ident counts $($count:ident),*) => {
        impl Answer for $answer {
            fn not_begun(refused: Refused) -> $answer {
                $answer {
                    refused: Some(refused),
                    $($count: 0,)*
                    written: 0,
                    number: 0,
                }
            }

            fn refused(&self) -> Option<Refused> {
                self.refused
            }

            fn written(&self) -> usize {
                self.written
            }

            fn number(&self) -> i32 {
                self.number
            }
        }
    };
}

answer!(Ran counts units, read);
answer!(Sourced counts begun, tips, depth);
