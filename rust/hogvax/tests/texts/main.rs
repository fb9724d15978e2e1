//! The programs of `samples/texts` and the trees of `samples/trees` are what
//! is said of them.

mod files;
#[path = "../shared/folder.rs"]
mod folder;
mod meanings;
mod runs;
mod trees;

#[cfg(unix)]
#[path = "../shared/archives.rs"]
mod archives;
#[cfg(unix)]
#[allow(dead_code)]
#[path = "../shared/compiler.rs"]
mod compiler;
#[cfg(unix)]
#[allow(dead_code)]
#[path = "../shared/page.rs"]
mod page;
#[cfg(unix)]
mod readme;
#[cfg(unix)]
#[allow(dead_code)]
#[path = "../shared/trial.rs"]
mod trial;

use folder::{bytes, files, hogvax_at_root, samples};
use hogvax::assembly;
use meanings::MEANINGS;
use reference::{read_tree, Tree};

/// The programs' names: those of their files without the ending.
fn names() -> impl Iterator<Item = &'static str> {
    MEANINGS.iter().map(|(name, _)| *name)
}

/// The text of a program.
fn text(name: &str) -> String {
    String::from_utf8(bytes(&format!("texts/{name}.txt"))).unwrap()
}

/// The records of a program's text.
fn records(name: &str) -> Vec<u8> {
    let text = assembly::read(text(name).as_bytes());
    text.unwrap_or_else(|fault| panic!("{name}: {fault}"))
        .records
}

/// The program file of a program's text.
fn program(name: &str) -> Vec<u8> {
    hogvax::pack(&records(name)).unwrap_or_else(|refused| panic!("{name}: {refused}"))
}

/// The trees of a token file, each with the place where it begins.
fn trees_in(bytes: &[u8]) -> Vec<(Tree, usize)> {
    let (mut trees, mut place) = (Vec::new(), 0);
    while place < bytes.len() {
        let (tree, length) = read_tree(&bytes[place..]).unwrap();
        trees.push((tree, place));
        place += length;
    }
    trees
}
