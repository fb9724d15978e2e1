//! The pages for users: what they show is so. Their commands print what the
//! pages say, their C programs compile without a warning, and the names that
//! they cite are there.

#![cfg(unix)]

#[path = "../shared/archives.rs"]
mod archives;
mod calling;
mod citations;
mod columns;
#[path = "../shared/compiler.rs"]
mod compiler;
mod contributing;
mod edits;
mod glossary;
mod links;
mod machinery;
mod names;
#[path = "../shared/page.rs"]
mod page;
mod pending;
mod promises;
mod readme;
mod reference;
mod relying;
mod stack;
mod tables;
mod tour;
#[path = "../shared/trial.rs"]
mod trial;
mod writing;
