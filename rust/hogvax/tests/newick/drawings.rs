//! Drawings of trees.

use std::fmt::{self, Write};

use hogvax::draw::{Drawing, Strokes};
use hogvax::newick::read;
use hogvax::Measures;

use super::picture::read_back;
use super::*;

const BOTH: [Strokes; 2] = [Strokes::Lines, Strokes::Ascii];

fn draw(tree: &Tree, width: usize, strokes: Strokes) -> String {
    let tokens = tree.tokens();
    Drawing::new(&tokens, width, strokes).unwrap().to_string()
}

/// The drawing of a tree in Newick text is these lines.
#[track_caller]
fn assert_drawn(newick: &str, width: usize, strokes: Strokes, lines: &[&str]) {
    let trees = read(newick.as_bytes()).unwrap();
    let drawing = Drawing::new(&trees.tokens, width, strokes).unwrap();
    let drawn = drawing.to_string();
    assert_eq!(drawn.lines().collect::<Vec<_>>(), lines, "\n{drawn}");
    assert!(drawn.ends_with('\n'));
}

// Known drawings

const CLADES: &str = "((1,(2,(3,(4,5)))),((6,7),(8,9)));";

#[test]
fn known_trees_are_drawn() {
    assert_drawn("5;", 10, Strokes::Lines, &["──────── 5"]);
    assert_drawn("-5;", 0, Strokes::Lines, &["─ -5"]);
    assert_drawn(
        "(5,7);",
        11,
        Strokes::Lines,
        &[
            " ┌─────── 5", //
            "─┤",
            " └─────── 7",
        ],
    );
    assert_drawn(
        "((1,(2,3)),-4);",
        13,
        Strokes::Lines,
        &[
            "    ┌───── 1",
            " ┌──┤  ┌── 2",
            " │  └──┤",
            "─┤     └── 3",
            " └──────── -4",
        ],
    );
    assert_drawn(
        "((((1,2),3),4),5);",
        11,
        Strokes::Lines,
        &[
            "       ┌─ 1",
            "     ┌─┤",
            "   ┌─┤ └─ 2",
            " ┌─┤ └─── 3",
            "─┤ └───── 4",
            " └─────── 5",
        ],
    );
}

#[test]
fn the_clades_are_drawn() {
    assert_drawn(
        CLADES,
        18,
        Strokes::Lines,
        &[
            "    ┌─────────── 1",
            " ┌──┤  ┌──────── 2",
            " │  └──┤  ┌───── 3",
            " │     └──┤  ┌── 4",
            " │        └──┤",
            "─┤           └── 5",
            " │     ┌──────── 6",
            " │  ┌──┤",
            " └──┤  └──────── 7",
            "    │  ┌──────── 8",
            "    └──┤",
            "       └──────── 9",
        ],
    );
    assert_drawn(
        CLADES,
        18,
        Strokes::Ascii,
        &[
            "    +----------- 1",
            " +--+  +-------- 2",
            " |  +--+  +----- 3",
            " |     +--+  +-- 4",
            " |        +--+",
            "-+           +-- 5",
            " |     +-------- 6",
            " |  +--+",
            " +--+  +-------- 7",
            "    |  +-------- 8",
            "    +--+",
            "       +-------- 9",
        ],
    );
}

#[test]
fn a_tree_that_is_too_deep_for_the_width_is_drawn_wider() {
    for width in [0, 1, 6] {
        let lines = [
            " ┌─── 1", //
            "─┤ ┌─ 2",
            " └─┤",
            "   └─ 3",
        ];
        assert_drawn("(1,(2,3));", width, Strokes::Lines, &lines);
    }
}

#[test]
fn labels_end_where_they_end() {
    assert_drawn(
        "(-2147483648,(0,2147483647));",
        22,
        Strokes::Ascii,
        &[
            " +-------- -2147483648",
            "-+   +---- 0",
            " +---+",
            "     +---- 2147483647",
        ],
    );
}

// Drawings read back

/// How many forks have two tips.
fn cherries(tree: &Tree) -> usize {
    let tokens: Vec<_> = tree.prefix().collect();
    let is_cherry = |three: &[reference::Token]| {
        use reference::Token::{Leaf, Node};
        matches!(three, [Node, Leaf(_), Leaf(_)])
    };
    tokens.windows(3).filter(|three| is_cherry(three)).count()
}

/// The columns of the longest line.
fn widest(drawing: &str) -> usize {
    let columns = drawing.lines().map(|line| line.chars().count());
    columns.max().unwrap()
}

/// How wide the drawing of a tree is: it fills the width, but a level has at
/// least 2 columns.
fn expected_width(tree: &Tree, width: usize) -> usize {
    let labels = tree.prefix().map(|token| match token {
        reference::Token::Leaf(label) => label.to_string().len(),
        reference::Token::Node => 0,
    });
    let least = 1 + 2 * tree.depth() + 1 + labels.max().unwrap();
    width.min(10_000).max(least)
}

/// The drawing has the width and the lines that it should, and reading it back
/// gives the tree. Whether it fits the width.
fn assert_drawing(tree: &Tree, width: usize, strokes: Strokes) -> bool {
    let drawing = draw(tree, width, strokes);
    let widest = widest(&drawing);
    assert_eq!(widest, expected_width(tree, width), "{drawing}");
    assert_eq!(drawing.lines().count(), tree.tips() + cherries(tree));
    let blank_ends = drawing.lines().filter(|line| line.ends_with(' ')).count();
    assert_eq!(blank_ends, 0, "{drawing}");
    assert_eq!(&read_back(&drawing, strokes), tree, "{drawing}");
    widest <= width
}

#[test]
fn drawings_of_random_trees_are_read_back() {
    let mut random = Random::new(441);
    let (mut fit, mut wider) = (0, 0);
    for _ in 0..3_000 {
        let tips = 1 + random.below(30);
        let tree = generate::tree(&mut random, tips);
        let width = random.below(100);
        for strokes in BOTH {
            match assert_drawing(&tree, width, strokes) {
                true => fit += 1,
                false => wider += 1,
            }
        }
    }
    assert!(fit > 1_000 && wider > 1_000, "{fit} {wider}");
}

/// Every shape of so many tips.
fn shapes(tips: usize) -> Vec<Tree> {
    if tips == 1 {
        return vec![Tree::leaf(7)];
    }
    let mut all = Vec::new();
    for left in 1..tips {
        for left_tree in shapes(left) {
            let pair = |right| Tree::node(left_tree.clone(), right);
            all.extend(shapes(tips - left).into_iter().map(pair));
        }
    }
    all
}

#[test]
fn drawings_of_every_shape_are_read_back() {
    let mut count = 0;
    for tips in 1..=8 {
        for tree in shapes(tips) {
            count += 1;
            for strokes in BOTH {
                assert_drawing(&tree, 0, strokes);
                assert_drawing(&tree, 25, strokes);
            }
        }
    }
    assert_eq!(count, 1 + 1 + 2 + 5 + 14 + 42 + 132 + 429);
}

#[test]
fn the_deepest_trees_are_drawn() {
    let mut random = Random::new(442);
    for make in CATERPILLARS {
        let tree = make(&mut random, 1_024);
        assert!(!assert_drawing(&tree, 80, Strokes::Lines));
        assert!(assert_drawing(&tree, 100_000, Strokes::Ascii));
    }
}

// Long drawings

/// Takes text, and keeps how much there was.
#[derive(Default)]
struct Pieces {
    lines: usize,
    longest: usize,
}

impl Write for Pieces {
    fn write_str(&mut self, text: &str) -> fmt::Result {
        self.lines += text.matches('\n').count();
        self.longest = self.longest.max(text.len());
        Ok(())
    }
}

/// No piece that is written is longer than a line.
#[test]
fn a_drawing_is_written_line_by_line() {
    let mut random = Random::new(443);
    let tree = generate::balanced(&mut random, 1 << 16);
    let tokens = tree.tokens();
    let drawing = Drawing::new(&tokens, 80, Strokes::Lines).unwrap();
    let mut pieces = Pieces::default();
    write!(pieces, "{drawing}").unwrap();
    assert_eq!(pieces.lines, (1 << 16) + (1 << 15));
    assert!(pieces.longest <= 3 * 80, "{}", pieces.longest);
}

// Tokens

#[test]
fn bytes_after_the_tree_are_not_drawn() {
    let mut random = Random::new(444);
    let tree = generate::tree(&mut random, 5);
    let tokens = [&tree.tokens()[..], &[3; 20]].concat();
    let drawing = Drawing::new(&tokens, 80, Strokes::Lines).unwrap();
    assert_eq!(drawing.to_string(), draw(&tree, 80, Strokes::Lines));
}

/// A tree that was read is drawn by what the tree reader gave: its depth is not
/// looked for again.
#[test]
fn measures_that_are_given_are_drawn_by() {
    let mut random = Random::new(445);
    for _ in 0..200 {
        let tips = 1 + random.below(30);
        let tree = generate::tree(&mut random, tips);
        let tokens = [&tree.tokens()[..], &[3; 20]].concat();
        let measures = hogvax::tree(&tokens).unwrap();
        for width in [0, 80] {
            let drawing = Drawing::measured(&tokens, measures, width, Strokes::Lines);
            assert_eq!(drawing.to_string(), draw(&tree, width, Strokes::Lines));
        }
        let depth = measures.depth + 1;
        let deeper = Measures { depth, ..measures };
        let wider = Drawing::measured(&tokens, deeper, 0, Strokes::Lines).to_string();
        assert_eq!(widest(&wider), 2 + widest(&draw(&tree, 0, Strokes::Lines)));
    }
}

#[test]
fn what_is_no_tree_is_refused() {
    for (tokens, told) in [
        (&[][..], "refused 15 0"),
        (&[1, 5, 0, 0], "refused 15 1"),
        (&[2, 1, 5, 0, 0, 0, 9], "refused 16 6"),
        (&[2; 2_000], "refused 20 1024"),
    ] {
        let refused = Drawing::new(tokens, 80, Strokes::Lines).unwrap_err();
        assert_eq!(refused.to_string(), told);
    }
}
