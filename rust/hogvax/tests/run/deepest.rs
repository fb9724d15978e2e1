//! The most words and calls that a checked program can have: 1,024 calls open,
//! with 16 words in each frame.

use reference::generate::{left_caterpillar, mixed_caterpillar, right_caterpillar};
use reference::machine::OPEN_LIMIT;
use reference::{Expr, Function, Random, Token, Tree};

use super::checked::{labelled, Checked};
use super::run_space::{assert_touches_nothing_else, SHORT};
use super::*;

/// The most words above a frame's base.
const FRAME_WORDS: usize = 16;

/// A leaf under so many nodes is come to with 1,024 calls open.
const DEEPEST: usize = OPEN_LIMIT - 1;

/// More bytes than a result here has.
const ROOM: usize = 200_000;

/// A program, and the words of each frame that waits where it is deepest.
struct Deep {
    program: Checked,
    waiting: usize,
    tree_valued: bool,
}

/// A program of one function, which calls itself once for each level of a
/// caterpillar.
fn deep(name: &str, tree_valued: bool, waiting: usize, leaf: Expr, node: Expr) -> Deep {
    let body = Expr::case(0, leaf, node);
    let function = Function {
        tree_valued,
        parameters: 0,
        body,
    };
    Deep {
        program: Checked::new(name, file(&Program::new(vec![function]))),
        waiting,
        tree_valued,
    }
}

/// So many Lets around a body, where some numbers are named already: each names
/// the number before it and 1, and the first of all, if none is named, 5.
fn lets(named: usize, count: usize, body: Expr) -> Expr {
    let number = |place: usize| match place {
        0 => Expr::constant(5),
        _ => Expr::plus(Expr::var(place as u8 - 1), Expr::constant(1)),
    };
    let places = (named..named + count).rev();
    places.fold(body, |body, place| Expr::let_in(number(place), body))
}

fn call(tree: u8) -> Expr {
    Expr::call(tree, 0, vec![])
}

fn leaf(name: usize) -> Expr {
    Expr::leaf(Expr::var(name as u8))
}

/// The tree as it is. No number can be pushed on the 16 words of a node.
fn copies() -> Deep {
    let label = lets(1, 14, leaf(0));
    let last = Expr::let_in(Expr::var(14), Expr::node(call(1), call(2)));
    let node = lets(0, 15, last);
    deep("copies", true, FRAME_WORDS, label, node)
}

/// Of a node whose left part is a leaf, the right part's result, then 15 leaves
/// with the words that have stood meanwhile: the label and what was counted up
/// from it.
fn keeps() -> Deep {
    let label = lets(1, 14, leaf(14));
    let kept = (0..15).map(leaf).reduce(Expr::node).expect("leaves");
    let right = Expr::let_in(Expr::var(0), call(2));
    let left_leaf = lets(1, 14, Expr::node(right, kept));
    let left_node = Expr::node(Expr::node(call(3), call(4)), call(2));
    let node = Expr::case(1, left_leaf, left_node);
    deep("keeps", true, FRAME_WORDS, label, node)
}

/// A number: the word that it gives back is the 16th.
fn counts() -> Deep {
    let label = lets(1, 14, Expr::var(14));
    let right = Expr::plus(Expr::var(13), call(2));
    let left_leaf = lets(1, 13, right);
    let left_node = Expr::plus(call(3), Expr::plus(call(4), call(2)));
    let node = Expr::case(1, left_leaf, left_node);
    deep("counts", false, FRAME_WORDS - 1, label, node)
}

/// The programs, each with trees of this depth that it goes down one call a
/// level. The labels are small.
fn on_trees(depth: usize) -> Vec<(Deep, Tree)> {
    let random = &mut Random::new(385);
    let left = left_caterpillar(random, depth);
    let mixed = mixed_caterpillar(random, depth);
    let right = right_caterpillar(random, depth);
    let all = [
        (copies(), left),
        (copies(), mixed),
        (copies(), right.clone()),
        (keeps(), right.clone()),
        (counts(), right),
    ];
    let mut label = || random.below(2_001) as i32 - 1_000;
    all.map(|(deep, tree)| (deep, labelled(&tree, &mut label)))
        .into()
}

/// The offset of the label of the last leaf under the most nodes.
fn deepest_label(tree: &Tree) -> usize {
    let (mut offset, mut deepest) = (0, (0, 0));
    let mut pending = vec![0];
    for token in tree.prefix() {
        let above = pending.pop().expect("a tree is due");
        if token == Token::Node {
            pending.extend([above + 1; 2]);
            offset += 1;
        } else {
            deepest = deepest.max((above, offset + 1));
            offset += 5;
        }
    }
    deepest.1
}

#[test]
fn the_deepest_runs_end() {
    let mut lent = Lent::exact();
    for (deep, tree) in on_trees(DEEPEST) {
        let tokens = tree.tokens();
        let gave = deep.program.answer(&mut lent, &tokens, u64::MAX, ROOM);
        let (ran, none) = (gave.ran(), gave.ran().written == 0);
        assert_eq!((ran.refused, ran.read), (None, tokens.len()));
        assert_eq!(deep.tree_valued, !none);
    }
}

/// Where the deepest label is not whole, all frames but the last have as many
/// words as can wait; 14 sums and a word more, and the last one has 16: 16,384
/// in all where a tree is given.
#[test]
fn the_deepest_runs_have_all_words() {
    let mut lent = Lent::exact();
    for (deep, tree) in on_trees(DEEPEST) {
        let (tokens, label) = (tree.tokens(), deepest_label(&tree));
        let case = deep.program.case(&tokens[..label + 3], u64::MAX, ROOM);
        let (gave, trace) = deep.program.traced(&mut lent, &case);
        assert_eq!((gave.number, trace.open), (15, OPEN_LIMIT));
        assert_eq!(trace.words, DEEPEST * deep.waiting);
        let tag = u64::from(deep.tree_valued);
        let fuel = gave.ran().units + 1 + 3 * 14 + tag + 1;
        let case = deep.program.case(&tokens, fuel, ROOM);
        let (gave, trace) = deep.program.traced(&mut lent, &case);
        assert_eq!((gave.number, trace.open), (14, OPEN_LIMIT));
        assert_eq!(trace.words, DEEPEST * deep.waiting + FRAME_WORDS);
        assert_eq!(trace.words == VALUE_WORDS, deep.tree_valued);
    }
}

#[test]
fn a_call_more_gives_18() {
    let mut lent = Lent::exact();
    for (deep, tree) in on_trees(DEEPEST + 1) {
        let case = deep.program.case(&tree.tokens(), u64::MAX, ROOM);
        let (gave, trace) = deep.program.traced(&mut lent, &case);
        assert_eq!((gave.number, trace.open), (18, OPEN_LIMIT));
    }
}

/// Of longer arrays the words after the first 16,384 and 2,048 stay as they
/// were.
#[test]
fn the_deepest_runs_leave_the_words_after_their_own() {
    for (deep, tree) in on_trees(DEEPEST) {
        let mut values: Vec<u32> = (0..2 * VALUE_WORDS as u32).map(|word| !word).collect();
        let mut returns: Vec<u64> = (0..2 * RETURN_WORDS as u64).map(|word| !word).collect();
        let (values_before, returns_before) = (values.clone(), returns.clone());
        let case = deep.program.case(&tree.tokens(), u64::MAX, ROOM);
        let number = case.call(Slices {
            output: &mut vec![FILLER; case.output],
            code: &mut vec![FILLER; case.code],
            values: &mut values,
            returns: &mut returns,
            answer: &mut [0; 5],
        });
        assert_eq!(number, 0);
        assert!(values[..VALUE_WORDS] != values_before[..VALUE_WORDS]);
        assert!(values[VALUE_WORDS..] == values_before[VALUE_WORDS..]);
        assert!(returns[RETURN_WORDS..] == returns_before[RETURN_WORDS..]);
    }
}

/// 13 with a value word or a return word less, and nothing is touched.
#[test]
fn the_deepest_runs_with_a_word_less() {
    for (deep, tree) in on_trees(DEEPEST) {
        let case = deep.program.case(&tree.tokens(), u64::MAX, ROOM);
        for (values, returns) in SHORT {
            let lengths = Lengths {
                values,
                returns,
                ..case.lengths()
            };
            assert_touches_nothing_else(&case, lengths, 13, [0; 5]);
        }
    }
}
