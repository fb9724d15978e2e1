//! Newick, the text format of phylogenies: a fork is `(1,2)`, a tip its label,
//! and each tree is closed by `;`.

mod chars;
mod items;
mod names;
mod print;
mod read;

pub use print::print;
pub use read::{read, read_bytes, Trees};
