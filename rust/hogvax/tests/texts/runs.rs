//! Each program gives what its sentence says, by the stream run and by the
//! source run.

use std::collections::HashSet;

use hogvax::{Refused, WorkSpace};
use reference::generate::{self, label, SPECIAL_LABELS};
use reference::{Random, Tree, Value};

use crate::meanings::parts::{labelled, labels, tips};
use crate::meanings::relabel::DEEPEST_PATH;
use crate::meanings::{Meaning, MEANINGS};
use crate::{bytes, files, program, trees_in};

// Trees

/// Labels that the programs look for, and others.
const SMALL: [i32; 12] = [-2, -1, 0, 1, 2, 3, 4, 5, 6, 7, 8, 9];

/// Sets of labels for random trees; the first one stands for all labels.
const SETS: [&[i32]; 7] = [
    &[],
    &SMALL,
    &[0, 7],
    &[1, 2, 3],
    &[2, 3, 4],
    &[1, 7, 7, 7],
    &[7],
];

/// Makers of random shapes from a number of nodes.
const SHAPES: [fn(&mut Random, usize) -> Tree; 5] = [
    |random, nodes| generate::tree(random, nodes + 1),
    |random, nodes| generate::balanced(random, nodes + 1),
    generate::left_caterpillar,
    generate::right_caterpillar,
    generate::mixed_caterpillar,
];

fn drawn(random: &mut Random, set: &[i32]) -> i32 {
    match set {
        [] => label(random),
        labels => random.pick(labels),
    }
}

/// Two trees of up to 30 tips for each maker and each set of labels.
fn random_trees(random: &mut Random) -> Vec<Tree> {
    let mut trees = Vec::new();
    for shape in SHAPES {
        for set in SETS {
            for _ in 0..2 {
                let nodes = random.below(30);
                let tree = shape(random, nodes);
                trees.push(labelled(&tree, |_| drawn(random, set)));
            }
        }
    }
    trees
}

/// Every shape with so many tips.
fn shapes(tips: usize) -> Vec<Tree> {
    if tips == 1 {
        return vec![Tree::leaf(0)];
    }
    let mut trees = Vec::new();
    for left in 1..tips {
        for (left, right) in pairs(&shapes(left), &shapes(tips - left)) {
            trees.push(Tree::node(left.clone(), right.clone()));
        }
    }
    trees
}

/// Every shape with up to 6 tips for each set of labels, and one with 8.
fn small_trees(random: &mut Random) -> Vec<Tree> {
    let mut shapes: Vec<Tree> = (1..=6).flat_map(shapes).collect();
    shapes.push(generate::balanced(random, 8));
    let pairs = pairs(&shapes, &SETS);
    let labelled = |(shape, set): (&Tree, &&[i32])| labelled(shape, |_| drawn(random, set));
    pairs.map(labelled).collect()
}

fn pairs<'a, A, B>(one: &'a [A], other: &'a [B]) -> impl Iterator<Item = (&'a A, &'a B)> {
    one.iter()
        .flat_map(move |a| other.iter().map(move |b| (a, b)))
}

/// Lone tips and cherries with labels that are likely to be got wrong.
fn tips_and_cherries() -> Vec<Tree> {
    let cherry = |(&left, &right)| Tree::node(Tree::leaf(left), Tree::leaf(right));
    let cherries = pairs(&SMALL, &SPECIAL_LABELS).map(cherry);
    let labels = SMALL.into_iter().chain(SPECIAL_LABELS);
    cherries.chain(labels.map(Tree::leaf)).collect()
}

/// The trees of all sample files, each with bytes that begin with it.
fn sample_trees() -> Vec<(Tree, Vec<u8>)> {
    let names = files("trees").into_iter();
    let names = names.filter(|name| name.ends_with(".tokens"));
    let names = names.map(|name| format!("trees/{name}"));
    let others = ["small.tokens", "clades.tokens"].map(str::to_owned);
    let mut trees = Vec::new();
    for name in names.chain(others) {
        let bytes = bytes(&name);
        for (tree, place) in trees_in(&bytes) {
            // Some bytes of the next tree are enough to stand after this one.
            let end = place + tree.tokens().len() + 11;
            let input = &bytes[place..end.min(bytes.len())];
            trees.push((tree, input.to_vec()));
        }
    }
    trees
}

// Runs

/// A program that is tried.
struct Trial {
    name: &'static str,
    meaning: &'static Meaning,
    file: Vec<u8>,
    work: WorkSpace,
    /// The numbers that it gave.
    numbers: HashSet<i32>,
    /// How many trees it gave that are not the one that it was given.
    changed: usize,
    /// How many trees it was refused on because a sum is out of range.
    refused: usize,
}

/// Whether a program may be refused with 21 on this tree: no sum of labels that are
/// not large is out of range, nor one of a label and a small number; and only the
/// number of a path grows with the depth.
fn may_be_refused(name: &str, tree: &Tree) -> bool {
    const LARGE: i64 = (1 << 31) - 10;
    let all: i64 = labels(tree)
        .into_iter()
        .map(|label| i64::from(label).abs())
        .sum();
    let deep = || tips(tree).iter().any(|tip| tip.way.len() > DEEPEST_PATH);
    all > LARGE || (name == "relabel-by-path" && deep())
}

impl Trial {
    fn all() -> Vec<Trial> {
        let trial = |(name, meaning): &'static (&'static str, Meaning)| Trial {
            name,
            meaning,
            file: program(name),
            work: WorkSpace::new(),
            numbers: HashSet::new(),
            changed: 0,
            refused: 0,
        };
        MEANINGS.iter().map(trial).collect()
    }

    /// Whether a sum is out of range, by both runs.
    fn is_refused(&mut self, input: &[u8]) -> bool {
        let (work, file, all) = (&mut self.work, &self.file, u64::MAX);
        let mut output = vec![0; 2 * input.len()];
        let ran = hogvax::run_in(work, file, input, all, &mut output);
        let sourced = hogvax::source_in(work, file, input, all, &mut output);
        let is_21 = |refused: Option<Refused>| refused.is_some_and(|why| why.number == 21);
        let [ran, sourced] = [ran.refused, sourced.refused].map(is_21);
        assert_eq!(ran, sourced, "{}", self.name);
        ran
    }

    /// The program gives what it means on this tree, whose tokens begin the
    /// input; or a sum is out of range.
    fn try_on(&mut self, tree: &Tree, input: &[u8]) {
        if self.is_refused(input) {
            assert!(may_be_refused(self.name, tree), "{}: {tree:?}", self.name);
            self.refused += 1;
            return;
        }
        let value = self.meaning.of(tree);
        let (result, number) = (value.bytes(), value.number());
        let (name, expected) = (self.name, (None, result.len(), number));
        let assert_given = |given, output: &[u8]| {
            assert_eq!(given, expected, "{name}: {tree:?}");
            assert!(output == result, "{name}: {tree:?}");
        };
        let (work, file, all) = (&mut self.work, &self.file, u64::MAX);

        let mut output = vec![0; result.len()];
        let ran = hogvax::run_in(work, file, input, all, &mut output);
        assert_given((ran.refused, ran.written, ran.number), &output);

        let mut output = vec![0; result.len()];
        let sourced = hogvax::source_in(work, file, input, all, &mut output);
        assert_given((sourced.refused, sourced.written, sourced.number), &output);

        match value {
            Value::Number(number) => drop(self.numbers.insert(number)),
            Value::Tree(given) => self.changed += usize::from(given != *tree),
        }
    }

    fn try_on_all(&mut self, trees: &[Tree]) {
        for tree in trees {
            self.try_on(tree, &tree.tokens());
        }
    }

    /// Every case of its sentence came up.
    fn assert_seen(&self) {
        match self.meaning {
            Meaning::Tree(_) => assert!(self.changed > 0, "{}", self.name),
            Meaning::Number(_, cases) => {
                for case in *cases {
                    assert!(self.numbers.contains(case), "{}: never {case}", self.name);
                }
            }
        }
    }
}

#[test]
fn the_programs_mean_what_they_say_on_small_and_random_trees() {
    let random = &mut Random::new(2);
    let (small, large) = (small_trees(random), random_trees(random));
    assert_eq!(small.len(), (1 + 1 + 2 + 5 + 14 + 42 + 1) * SETS.len());
    assert!(large.iter().any(|tree| tree.tips() == 30));
    for mut trial in Trial::all() {
        trial.try_on_all(&small);
        trial.try_on_all(&large);
        trial.try_on_all(&tips_and_cherries());
        trial.assert_seen();
        let sums = trial.name.starts_with("sum-") || trial.name.starts_with("relabel-add");
        assert!(!sums || trial.refused > 20, "{}", trial.name);
    }
}

#[test]
fn the_programs_mean_what_they_say_on_the_sample_trees() {
    let trees = sample_trees();
    assert_eq!(trees.len(), 1_018);
    for mut trial in Trial::all() {
        for (tree, input) in &trees {
            trial.try_on(tree, input);
        }
    }
}

/// One call more than there are nodes above a tip, and two besides, are open
/// at once: up to 1,024 may be.
#[test]
fn the_programs_run_on_trees_of_depth_1021() {
    let mut random = Random::new(3);
    let shapes = [
        generate::left_caterpillar,
        generate::right_caterpillar,
        generate::mixed_caterpillar,
    ];
    let trees = shapes.map(|shape| {
        let tree = shape(&mut random, 1_021);
        labelled(&tree, |_| random.pick(&SMALL))
    });
    for mut trial in Trial::all() {
        trial.try_on_all(&trees);
    }
}
