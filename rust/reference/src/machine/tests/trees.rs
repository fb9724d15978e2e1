use super::known::computed::{results, Computed};
use super::known::programs::{listed, GROW};
use super::*;
use crate::generate::sums::{total_in_range, total_out_of_range, with_moderate_labels, with_total};
use crate::generate::{left_caterpillar, right_caterpillar, tree};
use crate::tree::{tree_refusal, Token, Tree};

/// A run of a listed program with fuel enough.
fn case(listing: &str, input: &[u8]) -> TestCase {
    TestCase {
        code: assemble(&listed(listing)),
        input: input.to_vec(),
        fuel: u64::MAX,
        output: input.len(),
    }
}

/// A tree with a few labels 0, and bytes after its tokens.
fn tree_and_more(random: &mut Random) -> (Tree, Vec<u8>) {
    let tips = 1 + random.below(40);
    let tokens: Vec<Token> = tree(random, tips)
        .prefix()
        .map(|token| match token {
            Token::Leaf(_) if random.below(3) == 0 => Token::Leaf(0),
            other => other,
        })
        .collect();
    let tree = Tree::from_prefix(&tokens).expect("a tree");
    let mut input = tree.tokens();
    input.extend((0..random.below(3)).map(|_| random.byte()));
    (tree, input)
}

/// The run gives what is computed; whether it ended.
fn gives(tree: &Tree, input: &[u8], computed: &Computed) -> bool {
    let (ran, _, bytes) = ran(&case(computed.listing, input));
    assert_eq!(ran, computed.ran, "{tree:?}");
    let (wrote, rest) = bytes.split_at(computed.wrote.len());
    assert_eq!(wrote, computed.wrote, "{tree:?}");
    assert!(rest.iter().all(|&byte| byte == FILLER));
    let ended = ran.refusal.is_none();
    assert!(!ended || ran.read == 6 * tree.tips() - 1, "{tree:?}");
    ended
}

/// Each program ends and is refused 21, Fill aside, which only ends.
#[test]
fn worked_programs_on_random_trees() {
    let mut random = Random::new(11);
    let mut seen = [[0; 2]; 3];
    for _ in 0..300 {
        let (tree, input) = tree_and_more(&mut random);
        for (k, computed) in results(&tree).iter().enumerate() {
            let ended = gives(&tree, &input, computed);
            seen[k][usize::from(ended)] += 1;
        }
    }
    assert!(
        seen[..2].concat().iter().all(|&count| count >= 30),
        "{seen:?}"
    );
    assert_eq!(seen[2], [0, 300]);
}

/// Sum of labels that sum up to a total: all of them are read, and where the
/// total is out of range, all sums but the last fit.
#[test]
fn sums_of_known_totals() {
    let mut random = Random::new(12);
    for _ in 0..300 {
        let tips = 2 + random.below(200);
        let tree = tree(&mut random, tips);
        let total = total_in_range(&mut random);
        let fits = with_total(&mut random, &tree, total);
        let [_, sum, _] = results(&fits);
        assert_eq!(i64::from(sum.ran.number), total);
        assert!(gives(&fits, &fits.tokens(), &sum));
        let total = total_out_of_range(&mut random);
        let breaks = with_total(&mut random, &tree, total);
        let [_, broken, _] = results(&breaks);
        assert!(!gives(&breaks, &breaks.tokens(), &broken));
        assert_eq!(broken.ran.units + 2, sum.ran.units);
        let refusal = broken.ran.refusal.map(|refusal| refusal.position);
        assert_eq!(refusal, Some(6 * tips - 1), "{breaks:?}");
    }
}

/// Where the input ends or has no tag, Grow and the tree reader refuse with
/// the same number at the same byte.
#[test]
fn broken_trees_are_refused_where_the_tree_reader_refuses() {
    let mut random = Random::new(13);
    for _ in 0..500 {
        let (tree, _) = tree_and_more(&mut random);
        let tree = with_moderate_labels(&mut random, &tree);
        let mut input = tree.tokens();
        let place = random.below(input.len());
        match random.below(2) {
            0 => input.truncate(place),
            _ => input[place] = random.byte(),
        }
        let room = TestCase {
            output: 2 * tree.tokens().len() + 9,
            ..case(GROW, &input)
        };
        let (ran, _, _) = ran(&room);
        assert_eq!(ran.refusal, tree_refusal(&input), "{tree:?}");
    }
}

/// The deepest leaf is read with 1,024 calls open if 1,023 nodes stand above.
#[test]
fn deep_trees() {
    let mut random = Random::new(17);
    for caterpillar in [left_caterpillar, right_caterpillar] {
        let tree = caterpillar(&mut random, 1_023);
        let tree = with_moderate_labels(&mut random, &tree);
        let [grown, sum, _] = results(&tree);
        assert!(gives(&tree, &tree.tokens(), &grown));
        assert!(gives(&tree, &tree.tokens(), &sum));
        let breaks = with_total(&mut random, &tree, 1 << 31);
        let [_, broken, _] = results(&breaks);
        assert!(!gives(&breaks, &breaks.tokens(), &broken));
        let tree = caterpillar(&mut random, 1_024);
        let tree = with_moderate_labels(&mut random, &tree);
        let (ran, trace, _) = ran(&case(GROW, &tree.tokens()));
        assert_eq!(ran.refusal.map(|refusal| refusal.number), Some(18));
        assert_eq!(trace.open, OPEN_LIMIT);
    }
}
