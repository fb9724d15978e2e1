//! Dressed Newick text read as the trees that it was written for.

use std::collections::BTreeMap;

use hogvax::newick::{read, read_bytes, Trees};

use super::dressed::{Writer, FORMS};
use super::*;

/// The tokens of all trees, and how much was skipped; every form was seen.
#[test]
fn dressed_text_is_read_as_its_trees() {
    let mut random = Random::new(411);
    let mut seen: BTreeMap<String, usize> = BTreeMap::new();
    for round in 0..10_000 {
        let trees = small_trees(&mut random, round % 4);
        let mut writer = Writer::new(&mut random);
        trees.iter().for_each(|tree| writer.tree(tree));
        writer.blank();
        let read = read(writer.text.as_bytes());
        let expected = Trees {
            tokens: tokens(&trees),
            trees: trees.len(),
            lengths: writer.lengths,
            names: writer.names,
        };
        assert_eq!(read, Ok(expected), "{}", writer.text);
        for (form, count) in writer.seen {
            *seen.entry(form).or_insert(0) += count;
        }
    }
    assert_eq!(seen.len(), FORMS, "{seen:?}");
}

/// Every tree is read by the tree reader, and nothing is left.
#[test]
fn the_tokens_are_trees() {
    let mut random = Random::new(412);
    for _ in 0..5_000 {
        let trees = small_trees(&mut random, 3);
        let mut writer = Writer::new(&mut random);
        trees.iter().for_each(|tree| writer.tree(tree));
        let read = read(writer.text.as_bytes()).unwrap();
        let mut rest = &read.tokens[..];
        for tree in &trees {
            let measures = hogvax::tree(rest).unwrap();
            assert_eq!((measures.tips, measures.depth), (tree.tips(), tree.depth()));
            rest = &rest[measures.bytes..];
        }
        assert_eq!(read.trees, trees.len());
        assert!(rest.is_empty());
    }
}

/// Bytes one by one give what the whole text gives.
#[test]
fn bytes_one_by_one_are_read_alike() {
    let mut random = Random::new(413);
    for _ in 0..2_000 {
        let trees = small_trees(&mut random, 2);
        let mut writer = Writer::new(&mut random);
        trees.iter().for_each(|tree| writer.tree(tree));
        let text = writer.text.as_bytes();
        assert_eq!(read_bytes(text.iter().copied()), read(text));
    }
}

#[test]
fn text_without_a_tree_has_none() {
    for text in [
        "",
        " ",
        "\n",
        "\r\n\t \n",
        "[]",
        "[a comment]",
        " [a [b] c]\n[d] ",
    ] {
        assert_eq!(read(text.as_bytes()), Ok(Trees::default()), "{text}");
    }
}
