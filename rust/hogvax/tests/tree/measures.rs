//! Tips and depth: of known trees, of trees whose deepest leaf stands anywhere, and
//! beside what wrong readers would answer.

use std::collections::BTreeMap;

use super::every_input::every_shape;
use super::paths::*;
use super::*;

/// The tokens of the tree with these tags: `*` for a node, `.` for a leaf.
fn from_tags(tags: &str) -> Vec<u8> {
    let token = |tag| match tag {
        '*' => vec![NODE_TAG],
        _ => LEAF.to_vec(),
    };
    tags.chars().flat_map(token).collect()
}

/// N5: "its tip count and greatest depth (nodes above the deepest leaf, 0 for a lone
/// leaf)".
#[test]
fn known_trees_have_their_tips_and_depth() {
    for (tags, tips, depth) in [
        (".", 1, 0),
        ("*..", 2, 1),
        // The deepest leaf comes first, last, first and last.
        ("**...", 3, 2),
        ("*.*..", 3, 2),
        ("**..*..", 4, 2),
        // It is neither the first nor the last.
        ("**.*...", 4, 3),
        ("*.**...", 4, 3),
        ("**..**...", 5, 3),
        ("***..*...", 5, 3),
        ("**.**....", 5, 4),
        ("*.***...*..", 6, 4),
    ] {
        let tokens = from_tags(tags);
        assert_answer(&tokens, read(tips, depth));
        assert_like_reference(&tokens).unwrap();
        // Another tree after it, and the start of one.
        for after in [".", "*..", "**", "*.***...*.."] {
            let input = [&tokens[..], &from_tags(after)].concat();
            assert_answer(&input, read(tips, depth));
        }
    }
}

/// The nodes above each leaf of a tree, in order.
fn leaf_depths(tree: &[u8]) -> Vec<usize> {
    let (mut depths, mut pending) = (Vec::new(), vec![0]);
    for offset in tag_offsets(tree) {
        let above = pending.pop().unwrap();
        match tree[offset] {
            NODE_TAG => pending.extend([above + 1, above + 1]),
            _ => depths.push(above),
        }
    }
    depths
}

/// Tips and depth that a reader answers for a tree with such leaf depths, in an
/// input of this length.
type Reader = fn(&[usize], usize) -> (usize, usize);

/// Wrong readers.
const WRONG: [(&str, Reader); 14] = [
    ("depth of the first leaf", |all, _| (all.len(), all[0])),
    ("of the last leaf", |all, _| (all.len(), all[all.len() - 1])),
    ("of the first or last leaf", |all, _| {
        (all.len(), all[0].max(all[all.len() - 1]))
    }),
    ("of the highest leaf", |all, _| {
        (all.len(), all.iter().copied().min().unwrap())
    }),
    ("the leaf counted in the depth", |all, _| {
        (all.len(), deepest(all) + 1)
    }),
    ("the last node not counted", |all, _| {
        (all.len(), deepest(all).saturating_sub(1))
    }),
    ("1 for a lone leaf", |all, _| {
        (all.len(), deepest(all).max(1))
    }),
    ("all nodes for the depth", |all, _| {
        (all.len(), all.len() - 1)
    }),
    ("a depth in one byte", |all, _| {
        (all.len(), deepest(all) % 256)
    }),
    ("a depth up to 1,023", |all, _| {
        (all.len(), deepest(all).min(1_023))
    }),
    ("nodes for tips", |all, _| (all.len() - 1, deepest(all))),
    ("nodes and leaves for tips", |all, _| {
        (2 * all.len() - 1, deepest(all))
    }),
    ("tips of the whole input", |all, bytes| {
        ((bytes + 1) / 6, deepest(all))
    }),
    ("tips in two bytes", |all, _| {
        (all.len() % 65_536, deepest(all))
    }),
];

/// The depth of the tree with such leaf depths.
fn deepest(all: &[usize]) -> usize {
    all.iter().copied().max().unwrap()
}

/// How often each wrong reader answered otherwise than the tree reader.
#[derive(Debug, Default)]
struct Caught {
    often: BTreeMap<&'static str, usize>,
}

impl Caught {
    /// Reads a tree with these bytes after it.
    fn read(&mut self, tree: &[u8], after: &[u8]) {
        let input = [tree, after].concat();
        let all = leaf_depths(tree);
        let right = (all.len(), deepest(&all));
        assert_answer(&input, read(right.0, right.1));
        for (name, wrong) in WRONG {
            let caught = wrong(&all, input.len()) != right;
            *self.often.entry(name).or_default() += usize::from(caught);
        }
    }

    fn assert_all(&self) {
        assert!(self.often.values().all(|&often| often > 0), "{self:?}");
        assert_eq!(self.often.len(), WRONG.len());
    }
}

/// What stands after a tree: nothing, a leaf, a node, bytes that are no tag.
const AFTER: [&[u8]; 4] = [&[], &LEAF, &[2, 2, 2], &[0, 9, 9, 9, 9, 9]];

#[test]
fn wrong_readers_are_caught() {
    let mut caught = Caught::default();
    for (tree, depth) in (1..=8).flat_map(|tips| every_shape(tips, LEAF)) {
        assert_eq!(deepest(&leaf_depths(&tree)), depth);
        for after in AFTER {
            caught.read(&tree, after);
        }
    }
    for path in [255, 256, 257, 1_023, 1_024].map(paths).concat() {
        caught.read(&caterpillar(&path), &[]);
    }
    caught.read(&balanced(16), &[]);
    caught.assert_all();
}

/// Where the deepest leaves stand in a tree with such leaf depths.
fn place(all: &[usize]) -> &'static str {
    let is_deepest = |above: usize| above == deepest(all);
    let ends = (is_deepest(all[0]), is_deepest(all[all.len() - 1]));
    match ends {
        _ if all.len() == 1 => "a lone leaf",
        _ if all.iter().all(|&above| is_deepest(above)) => "everywhere",
        (true, true) => "first and last",
        (true, false) => "first and not last",
        (false, true) => "last and not first",
        (false, false) => "neither first nor last",
    }
}

/// A path of some length with small trees beside it.
fn path_tree(random: &mut Random) -> Vec<u8> {
    let longest = random.pick(&[4, 40, 400, DEPTH_LIMIT - 8]);
    let length = random.below(longest);
    let path = random_path(random, length);
    let mut small = || {
        let tips = 1 + random.below(6);
        generate::tree(random, tips).tokens()
    };
    let end = small();
    tree_along(&path, &end, |_, _| small())
}

/// Every place of the deepest leaves is seen, and every wrong reader is caught, those
/// aside that are wrong of larger trees alone.
#[test]
fn the_deepest_leaf_may_stand_anywhere() {
    on_a_small_stack(|| {
        let mut random = Random::new(16);
        let (mut caught, mut places) = (Caught::default(), BTreeMap::new());
        for _ in 0..4_000 {
            let tips = 1 + random.below(12);
            for tree in [
                generate::tree(&mut random, tips).tokens(),
                path_tree(&mut random),
            ] {
                let length = random.below(12);
                let after = generate::tag_like_bytes(&mut random, length);
                caught.read(&tree, &after);
                *places.entry(place(&leaf_depths(&tree))).or_insert(0) += 1;
            }
        }
        println!("{places:?} {caught:?}");
        assert_eq!(places.len(), 6, "{places:?}");
        assert!(places.values().all(|&count| count > 40), "{places:?}");
        for (name, often) in caught.often {
            let of_larger = ["tips in two bytes", "a depth up to 1,023"].contains(&name);
            assert!(often > 100 || of_larger, "{name}: {often}");
        }
    });
}
