use super::*;
use crate::generate;
use crate::random::Random;

mod measures;

/// "Tree T: 02 01 05 00 00 00 01 07 00 00 00."
const T: [u8; 11] = [2, 1, 5, 0, 0, 0, 1, 7, 0, 0, 0];

fn leaf(label: i32) -> Tree {
    Tree::leaf(label)
}

fn node(left: Tree, right: Tree) -> Tree {
    Tree::node(left, right)
}

/// Both readers read exactly this tree, with this end, and find its tips and
/// depth.
fn assert_read(input: &[u8], tree: &Tree, end: usize) {
    let (found, found_end) = read_tree(input).unwrap();
    assert_eq!(found, *tree);
    assert_eq!(found_end, end);
    assert_eq!(tree_measures(input), Ok(measures_of(tree, end)));
    assert_eq!(tree_end(input), Ok(end));
    assert_eq!(tree_bytes(input), tree.tokens());
    assert_eq!(tree_refusal(input), None);
}

/// The tree's tips and depth, found on the tree, with this end.
fn measures_of(tree: &Tree, end: usize) -> Measures {
    Measures {
        bytes: end,
        tips: tree.tips(),
        depth: tree.depth(),
    }
}

/// Both readers refuse with this number and position.
fn assert_refused(input: &[u8], number: u8, position: usize) {
    let refusal = Refusal { number, position };
    assert_eq!(read_tree(input).unwrap_err(), refusal);
    assert_eq!(tree_measures(input), Err(refusal));
    assert_eq!(tree_end(input), Err(refusal));
    assert_eq!(tree_bytes(input), []);
    assert_eq!(tree_refusal(input), Some(refusal));
}

fn node_tags(count: usize) -> Vec<u8> {
    vec![NODE_TAG; count]
}

// Trees and tokens

#[test]
fn a_leaf_is_byte_1_then_its_label() {
    assert_eq!(leaf(5).tokens(), [1, 5, 0, 0, 0]);
    assert_eq!(leaf(0x0403_0201).tokens(), [1, 1, 2, 3, 4]);
}

#[test]
fn labels_are_twos_complement() {
    assert_eq!(leaf(-1).tokens(), [1, 255, 255, 255, 255]);
    assert_eq!(leaf(-2).tokens(), [1, 254, 255, 255, 255]);
    assert_eq!(leaf(i32::MIN).tokens(), [1, 0, 0, 0, 0x80]);
    assert_eq!(leaf(i32::MAX).tokens(), [1, 255, 255, 255, 0x7f]);
}

#[test]
fn a_node_is_byte_2_then_its_left_and_right_trees() {
    assert_eq!(node(leaf(5), leaf(7)).tokens(), T);
    let tree = node(leaf(9), node(leaf(5), leaf(7)));
    assert_eq!(tree.tokens(), [&[2, 1, 9, 0, 0, 0], &T[..]].concat());
    let tree = node(node(leaf(5), leaf(7)), leaf(9));
    assert_eq!(tree.tokens(), [&[2], &T[..], &[1, 9, 0, 0, 0]].concat());
}

#[test]
fn a_tree_of_n_leaves_takes_6n_less_1_bytes() {
    let mut random = Random::new(10);
    for tips in 1..300 {
        let tree = generate::tree(&mut random, tips);
        assert_eq!(tree.tokens().len(), 6 * tips - 1);
    }
}

#[test]
fn tips_and_depth() {
    assert_eq!((leaf(1).tips(), leaf(1).depth()), (1, 0));
    let tree = node(leaf(1), leaf(2));
    assert_eq!((tree.tips(), tree.depth()), (2, 1));
    let tree = node(node(leaf(1), leaf(2)), node(leaf(3), leaf(4)));
    assert_eq!((tree.tips(), tree.depth()), (4, 2));
    let tree = node(leaf(1), node(node(leaf(2), leaf(3)), leaf(4)));
    assert_eq!((tree.tips(), tree.depth()), (4, 3));
}

#[test]
fn equality_is_of_shape_and_labels() {
    assert_eq!(node(leaf(1), leaf(2)), node(leaf(1), leaf(2)));
    assert_ne!(node(leaf(1), leaf(2)), node(leaf(2), leaf(1)));
    assert_ne!(leaf(1), node(leaf(1), leaf(1)));
    let left = node(node(leaf(1), leaf(2)), leaf(3));
    let right = node(leaf(1), node(leaf(2), leaf(3)));
    assert_ne!(left, right);
    assert_eq!(left, left.clone());
}

#[test]
fn prefix_order_makes_the_tree_again() {
    let mut random = Random::new(11);
    for tips in 1..100 {
        let tree = generate::tree(&mut random, tips);
        let tokens: Vec<Token> = tree.prefix().collect();
        assert_eq!(Tree::from_prefix(&tokens), Some(tree));
        assert_eq!(Tree::from_prefix(&tokens[1..]), None);
        assert_eq!(Tree::from_prefix(&tokens[..tokens.len() - 1]), None);
    }
    assert_eq!(Tree::from_prefix(&[Token::Leaf(1), Token::Leaf(2)]), None);
    assert_eq!(Tree::from_prefix(&[Token::Leaf(1), Token::Node]), None);
}

#[test]
fn a_tree_is_shown_in_short() {
    let tree = node(leaf(5), leaf(-7));
    assert_eq!(format!("{tree:?}"), "tree of 2 tips, depth 1: * 5 -7");
}

#[test]
fn trees_millions_deep_are_built_written_compared_and_dropped() {
    let depth = 2_000_000;
    for make in [generate::left_caterpillar, generate::right_caterpillar] {
        let tree = make(&mut Random::new(12), depth);
        assert_eq!(tree.depth(), depth);
        assert_eq!(tree.tips(), depth + 1);
        assert_eq!(tree.tokens().len(), 6 * (depth + 1) - 1);
        let copy = tree.clone();
        assert!(tree == copy);
        let taller = node(copy, leaf(0));
        assert!(tree != taller);
    }
}

// What the reader reads

#[test]
fn the_reader_reads_t() {
    assert_read(&T, &node(leaf(5), leaf(7)), 11);
}

#[test]
fn the_reader_reads_every_special_label() {
    for label in generate::SPECIAL_LABELS {
        assert_read(&leaf(label).tokens(), &leaf(label), 5);
        let tree = node(leaf(label), leaf(label));
        assert_read(&tree.tokens(), &tree, 11);
    }
}

#[test]
fn the_reader_takes_the_first_tree_of_a_buffer() {
    let tree = node(leaf(5), leaf(7));
    for after in [0, 1, 2, 3, 255] {
        assert_read(&[&T[..], &[after]].concat(), &tree, 11);
        assert_read(&[&T[..], &[after; 2000]].concat(), &tree, 11);
    }
    assert_read(&[T, T].concat(), &tree, 11);
}

#[test]
fn the_bytes_handed_back_are_a_part_of_the_input() {
    let input = [&T[..], &[3, 3, 3]].concat();
    assert_eq!(tree_bytes(&input).as_ptr(), input.as_ptr());
    assert_eq!(tree_bytes(&input), T);
    assert_eq!(tree_bytes(&input[..10]), []);
}

#[test]
fn random_trees_are_read_as_written() {
    let mut random = Random::new(13);
    for tips in 1..300 {
        let tree = generate::tree(&mut random, tips);
        let mut input = tree.tokens();
        assert_read(&input, &tree, 6 * tips - 1);
        input.extend(generate::tag_like_bytes(&mut random, 20));
        assert_read(&input, &tree, 6 * tips - 1);
    }
}

#[test]
fn the_end_of_a_hundred_million_bytes() {
    let mut input = leaf(0x0202_0202).tokens();
    for _ in 0..24 {
        input = [&[NODE_TAG], &input[..], &input[..]].concat();
    }
    let end = 6 * (1 << 24) - 1;
    assert_eq!(input.len(), end);
    input.push(3);
    let measures = Measures {
        bytes: end,
        tips: 1 << 24,
        depth: 24,
    };
    assert_eq!(tree_measures(&input), Ok(measures));
    assert_eq!(tree_end(&input), Ok(end));
    let position = end - 4;
    let refusal = Refusal {
        number: 15,
        position,
    };
    assert_eq!(tree_measures(&input[..end - 1]), Err(refusal));
    assert_eq!(tree_end(&input[..end - 1]), Err(refusal));
}

// What the reader refuses

#[test]
fn empty_input() {
    assert_refused(&[], 15, 0);
}

#[test]
fn a_byte_not_1_or_2() {
    for byte in (0..=255).filter(|byte| ![1, 2].contains(byte)) {
        assert_refused(&[byte], 16, 0);
        assert_refused(&[byte, 0, 0, 0, 0], 16, 0);
        assert_refused(&[2, byte], 16, 1);
        assert_refused(&[2, 1, 0, 0, 0, 0, byte], 16, 6);
    }
}

#[test]
fn a_lone_tag() {
    assert_refused(&[1], 15, 1);
    assert_refused(&[2], 15, 1);
}

/// A label not whole: "01 05 00 00: 15, read 1".
#[test]
fn a_label_not_whole() {
    assert_refused(&[1, 5], 15, 1);
    assert_refused(&[1, 5, 0], 15, 1);
    assert_refused(&[1, 5, 0, 0], 15, 1);
    assert_refused(&[1, 3, 3, 3], 15, 1);
}

/// Every cut of the tree is 15 at the position given for its length.
fn assert_cuts(tree: &Tree, positions: &[usize]) {
    let tokens = tree.tokens();
    assert_eq!(tokens.len(), positions.len());
    for (length, &position) in positions.iter().enumerate() {
        assert_refused(&tokens[..length], 15, position);
    }
    assert_read(&tokens, tree, tokens.len());
}

#[test]
fn every_cut_of_small_trees() {
    assert_cuts(&leaf(5), &[0, 1, 1, 1, 1]);
    assert_cuts(&node(leaf(5), leaf(7)), &[0, 1, 2, 2, 2, 2, 6, 7, 7, 7, 7]);
    assert_cuts(
        &node(node(leaf(1), leaf(2)), leaf(3)),
        &[0, 1, 2, 3, 3, 3, 3, 7, 8, 8, 8, 8, 12, 13, 13, 13, 13],
    );
    assert_cuts(
        &node(leaf(1), node(leaf(2), leaf(3))),
        &[0, 1, 2, 2, 2, 2, 6, 7, 8, 8, 8, 8, 12, 13, 13, 13, 13],
    );
}

// Depth

#[test]
fn a_leaf_under_1024_nodes_is_read() {
    let mut random = Random::new(14);
    for make in [
        generate::left_caterpillar,
        generate::right_caterpillar,
        generate::mixed_caterpillar,
    ] {
        for depth in [1022, 1023, 1024] {
            let tree = make(&mut random, depth);
            assert_read(&tree.tokens(), &tree, 6 * (depth + 1) - 1);
        }
    }
}

#[test]
fn a_node_tag_under_1024_others_is_refused() {
    let mut random = Random::new(15);
    for depth in [1025, 1026, 3000] {
        let left = generate::left_caterpillar(&mut random, depth);
        assert_refused(&left.tokens(), 20, 1024);
        let right = generate::right_caterpillar(&mut random, depth);
        assert_refused(&right.tokens(), 20, 6 * 1024);
    }
}

/// The place of the last node tag of a tree.
fn last_node_tag(tree: &Tree) -> usize {
    let (mut place, mut last) = (0, 0);
    for token in tree.prefix() {
        match token {
            Token::Leaf(_) => place += 5,
            Token::Node => {
                last = place;
                place += 1;
            }
        }
    }
    last
}

#[test]
fn a_node_tag_under_1024_others_to_either_side_is_refused() {
    let mut random = Random::new(16);
    for _ in 0..50 {
        let tree = generate::mixed_caterpillar(&mut random, 1025);
        assert_refused(&tree.tokens(), 20, last_node_tag(&tree));
    }
}

#[test]
fn only_nodes_above_count() {
    let mut random = Random::new(17);
    let left = generate::left_caterpillar(&mut random, 1023);
    let right = generate::left_caterpillar(&mut random, 1023);
    let tree = node(left, right);
    assert_read(&tree.tokens(), &tree, 6 * 2048 - 1);
    let tree = node(leaf(0), generate::left_caterpillar(&mut random, 1024));
    assert_refused(&tree.tokens(), 20, 6 + 1023);
}

#[test]
fn node_tags_alone() {
    for count in [0, 1, 2, 1023, 1024] {
        assert_refused(&node_tags(count), 15, count);
    }
    for count in [1025, 1026, 100_000] {
        assert_refused(&node_tags(count), 20, 1024);
    }
}

#[test]
fn a_20_at_byte_1024_comes_before_a_16_further_on() {
    for further in [1025, 1026, 2000] {
        let mut input = node_tags(further);
        input.push(3);
        assert_refused(&input, 20, 1024);
        input.extend(T);
        assert_refused(&input, 20, 1024);
    }
}

#[test]
fn the_first_fault_from_the_left_is_told() {
    for place in 0..=1024 {
        let mut input = node_tags(3000);
        input[place] = 0;
        assert_refused(&input, 16, place);
    }
    let mut input = node_tags(1024);
    input.extend([1, 2, 2, 2]);
    assert_refused(&input, 15, 1025);
    input.extend([2, 2]);
    assert_refused(&input, 20, 1029);
}

// Both readers on random and damaged inputs

/// Both readers agree; what is read is what was written, and what stands
/// before the position of a refusal is free of faults. Gives the number of the
/// refusal, 0 for none.
fn assert_agree(input: &[u8]) -> u8 {
    match read_tree(input) {
        Ok((tree, end)) => {
            assert_eq!(tree_measures(input), Ok(measures_of(&tree, end)));
            assert_eq!(tree_end(input), Ok(end));
            assert_eq!(tree.tokens(), input[..end]);
            assert_eq!(end, 6 * tree.tips() - 1);
            assert!(tree.depth() <= DEPTH_LIMIT);
            0
        }
        Err(refusal) => {
            assert_eq!(tree_measures(input), Err(refusal));
            assert_eq!(tree_end(input), Err(refusal));
            assert_refused(&input[..refusal.position], 15, refusal.position);
            refusal.number
        }
    }
}

/// Reads so many inputs and demands that each of these outcomes comes up,
/// and no other.
fn assert_outcomes(count: usize, outcomes: &[u8], mut input: impl FnMut() -> Vec<u8>) {
    let mut seen = [0; 21];
    for _ in 0..count {
        seen[assert_agree(&input()) as usize] += 1;
    }
    for outcome in 0..21 {
        assert_eq!(seen[outcome as usize] > 0, outcomes.contains(&outcome));
    }
}

#[test]
fn the_readers_agree_on_random_bytes() {
    let mut random = Random::new(18);
    assert_outcomes(10_000, &[0, 15, 16], || {
        let length = random.below(60);
        generate::tag_like_bytes(&mut random, length)
    });
}

#[test]
fn the_readers_agree_on_damaged_trees() {
    let mut random = Random::new(19);
    assert_outcomes(10_000, &[0, 15, 16], || {
        let tips = 1 + random.below(30);
        let tokens = generate::tree(&mut random, tips).tokens();
        generate::damaged(&mut random, &tokens)
    });
}

#[test]
fn the_readers_agree_on_damaged_deep_trees() {
    let mut random = Random::new(20);
    assert_outcomes(2_000, &[0, 15, 16, 20], || {
        let depth = 1020 + random.below(8);
        let tokens = generate::mixed_caterpillar(&mut random, depth).tokens();
        generate::damaged(&mut random, &tokens)
    });
}
