//! The files of `samples/trees`: the Newick files are what the script makes,
//! and the token files are theirs.

use std::fs;
use std::path::{Path, PathBuf};
use std::process::Command;

use hogvax::newick;
use reference::Tree;

use crate::{bytes, files, hogvax_at_root, samples, trees_in};

/// The files, without their endings.
const NAMES: [&str; 6] = ["deep", "forest", "reads", "small", "thousand", "wide"];

#[test]
fn there_are_no_other_trees() {
    let both = |name| [format!("{name}.nwk"), format!("{name}.tokens")];
    let mut expected: Vec<String> = NAMES.into_iter().flat_map(both).collect();
    expected.push("make".to_owned());
    expected.sort();
    assert_eq!(files("trees"), expected);
}

#[test]
fn the_trees_are_small_enough_to_be_shipped() {
    let length = |name: &String| bytes(&format!("trees/{name}")).len();
    let all: usize = files("trees").iter().map(length).sum();
    assert!(all < 1_200_000, "{all}");
}

// The script

/// A new folder for a test.
fn folder(name: &str) -> PathBuf {
    let folder = Path::new(env!("CARGO_TARGET_TMPDIR"))
        .join("trees")
        .join(name);
    let _ = fs::remove_dir_all(&folder);
    fs::create_dir_all(&folder).unwrap();
    folder
}

/// The exit status of the script with these words.
fn make(folder: &Path, words: &[&str]) -> Option<i32> {
    let mut command = Command::new("sh");
    command.arg(samples("trees/make")).args(words);
    command.current_dir(folder).output().unwrap().status.code()
}

#[test]
fn the_script_makes_the_newick_files() {
    let folder = folder("made");
    assert_eq!(make(&folder, &["new/trees"]), Some(0));
    for name in NAMES {
        let made = fs::read(folder.join(format!("new/trees/{name}.nwk"))).unwrap();
        assert!(made == bytes(&format!("trees/{name}.nwk")), "{name}");
    }
    assert_eq!(fs::read_dir(folder.join("new/trees")).unwrap().count(), 6);
}

/// Other seeds give other trees of the same numbers, and one seed the same.
#[test]
fn the_script_takes_a_seed() {
    let folder = folder("seeds");
    for (name, seed) in [("a", "2"), ("b", "2"), ("c", "1"), ("d", "2147483646")] {
        assert_eq!(make(&folder, &[name, seed]), Some(0));
    }
    let read = |name: &str| fs::read(folder.join(name)).unwrap();
    for (name, trees) in [("forest.nwk", 12), ("thousand.nwk", 1_000)] {
        let path = |seed| format!("{seed}/{name}");
        let a = read(&path("a"));
        assert!(a == read(&path("b")), "{name}");
        assert!(
            read(&path("c")) == bytes(&format!("trees/{name}")),
            "{name}"
        );
        assert!(a != read(&path("c")) && a != read(&path("d")), "{name}");
        assert_eq!(newick::read(&a).unwrap().trees, trees, "{name}");
        assert_eq!(newick::read(&read(&path("d"))).unwrap().trees, trees);
    }
}

#[test]
fn the_script_refuses_wrong_words() {
    let folder = folder("wrong");
    for words in [
        &[][..],
        &["a", "1", "2"],
        &["a", ""],
        &["a", "0"],
        &["a", "01"],
        &["a", "-1"],
        &["a", "one"],
        &["a", "2147483647"],
        &["a", "18446744073709551617"],
    ] {
        assert_eq!(make(&folder, words), Some(2), "{words:?}");
    }
    assert_eq!(fs::read_dir(&folder).unwrap().count(), 0);
}

// The token files

#[test]
fn the_token_files_are_the_newick_files() {
    for name in NAMES {
        let tokens = bytes(&format!("trees/{name}.tokens"));
        let trees = newick::read(&bytes(&format!("trees/{name}.nwk"))).unwrap();
        assert!(trees.tokens == tokens, "{name}");
        let output = hogvax_at_root(&["tokens", &format!("samples/trees/{name}.nwk")]);
        assert!(output.stdout == tokens, "{name}");
        assert_eq!(output.status.code(), Some(0), "{name}");
    }
}

#[test]
fn the_token_files_are_printed_and_read_again() {
    for name in NAMES {
        let tokens = bytes(&format!("trees/{name}.tokens"));
        let printed = newick::print(&tokens).unwrap();
        assert!(
            newick::read(printed.as_bytes()).unwrap().tokens == tokens,
            "{name}"
        );
    }
}

/// Newick without names, lengths and comments is what `newick` prints.
#[test]
fn the_plain_newick_files_are_printed() {
    for name in ["deep", "reads", "small", "thousand", "wide"] {
        let printed = newick::print(&bytes(&format!("trees/{name}.tokens"))).unwrap();
        assert!(
            printed.into_bytes() == bytes(&format!("trees/{name}.nwk")),
            "{name}"
        );
    }
}

/// The trees of a token file.
fn trees(name: &str) -> Vec<Tree> {
    let trees = trees_in(&bytes(&format!("trees/{name}.tokens")));
    trees.into_iter().map(|(tree, _)| tree).collect()
}

/// The tips and depth of a file's only tree.
fn one_tree(name: &str) -> (usize, usize) {
    match &trees(name)[..] {
        [tree] => (tree.tips(), tree.depth()),
        trees => panic!("{name}: {} trees", trees.len()),
    }
}

#[test]
fn the_trees_have_the_sizes_that_are_said() {
    assert_eq!(one_tree("small"), (8, 5));
    assert_eq!(one_tree("deep"), (1_000, 999));
    assert_eq!(one_tree("wide"), (4_096, 12));
    for (name, count, least, most) in [("forest", 12, 4, 30), ("thousand", 1_000, 10, 40)] {
        let trees = trees(name);
        assert_eq!(trees.len(), count, "{name}");
        let right = |tree: &Tree| (least..=most).contains(&tree.tips());
        assert!(trees.iter().all(right), "{name}");
    }
}

/// The forest is written as programs of the field write trees.
#[test]
fn the_forest_has_lengths_names_quotes_and_comments() {
    let forest = String::from_utf8(bytes("trees/forest.nwk")).unwrap();
    let read = newick::read(forest.as_bytes()).unwrap();
    assert!(read.lengths > 100 && read.names > 50, "{read:?}");
    for part in ["[&R] ", "[&support=", "'clade ", "e-", ",\n    ", "'-1':"] {
        assert!(forest.contains(part), "{part}");
    }
}
