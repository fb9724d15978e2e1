//! The source run beside the stream run: what the one means, the other gives.

use std::collections::BTreeMap;

use reference::generate::evaluated::{any_program, deep_tree, small_tree};
use reference::generate::sums::{self, with_moderate_labels};
use reference::generate::{balanced, mixed_caterpillar};
use reference::{check_program, Tree};

use super::*;

/// More bytes than a result here has.
const ROOM: usize = 100_000;

/// Most are small; some are too deep for most programs.
fn any_tree(random: &mut Random) -> Tree {
    let depth = match random.below(20) {
        0 => 1_000 + random.below(30),
        1 | 2 => random.below(200),
        _ => return small_tree(random),
    };
    deep_tree(random, depth)
}

/// Both runs, in one work space: their answers and outputs.
struct Both {
    sourced: hogvax::Sourced,
    meant: Vec<u8>,
    ran: hogvax::Ran,
    streamed: Vec<u8>,
}

impl Both {
    /// The source run with this fuel, the stream run with as much as 4n + 1
    /// where the source run ended after n expressions, else with the most that
    /// there can be.
    fn new(lent: &mut Lent, file: &[u8], tokens: &[u8], fuel: u64, room: usize) -> Both {
        let work = &mut lent.work;
        let (mut meant, mut streamed) = (vec![FILLER; room], vec![FILLER; room]);
        let sourced = hogvax::source_in(work, file, tokens, fuel, &mut meant);
        let enough = match sourced.refused {
            None => 4 * sourced.begun + 1,
            Some(_) => u64::MAX,
        };
        let ran = hogvax::run_in(work, file, tokens, enough, &mut streamed);
        Both {
            sourced,
            meant,
            ran,
            streamed,
        }
    }

    /// The same number, and the same bytes, after the whole tree has been
    /// read.
    fn assert_equal(&self, tokens: &[u8]) {
        let (sourced, ran) = (self.sourced, self.ran);
        assert_eq!(sourced.refused, None);
        assert_eq!(ran.refused, None);
        assert_eq!(ran.number, sourced.number);
        assert_eq!(ran.written, sourced.written);
        assert_eq!(ran.read, tokens.len());
        assert!(self.streamed == self.meant);
    }
}

/// The source run's refusal, 0 if it ended.
fn number(both: &Both) -> u32 {
    both.sourced.refused.map_or(0, |refused| refused.number)
}

/// A program in order and a tree; one in ten with sums at the ends of the range.
fn any_program_and_tree(random: &mut Random) -> (Program, Tree) {
    match random.below(10) {
        0 => sums::program_and_tree(random),
        _ => (any_program(random), any_tree(random)),
    }
}

/// Where the source run ends, so does the stream run, and gives the same;
/// where the source run is refused with 18 or 21, so is the stream run.
#[test]
fn checked_programs_mean_what_they_give() {
    let mut random = Random::new(440);
    let (mut lent, mut seen) = (Lent::new(), BTreeMap::new());
    for _ in times(900, 9_000) {
        let (program, tree) = any_program_and_tree(&mut random);
        assert!(check_program(&program).is_ok(), "{program:?}");
        let (file, tokens) = (file(&program), tree.tokens());
        // Deeper trees are refused by the source run alone.
        let case = SourceCase::new(&file, &tokens, MODERATE, ROOM);
        let refused = lent.source(&case).0.refused;
        if refused.is_some_and(|refused| [14, 20].contains(&refused.number)) {
            continue;
        }
        let both = Both::new(&mut lent, &file, &tokens, MODERATE, ROOM);
        match number(&both) {
            0 => both.assert_equal(&tokens),
            other @ (18 | 21) => {
                let refused = both.ran.refused.map(|refused| refused.number);
                assert_eq!(refused, Some(other), "{program:?}");
            }
            other => panic!("{other}: {program:?}"),
        }
        let kind = (number(&both), program.functions[0].tree_valued);
        *seen.entry(kind).or_insert(0) += 1;
    }
    println!("{seen:?}");
    for number in [0, 18, 21] {
        for kind in [(number, false), (number, true)] {
            assert!(seen.get(&kind).is_some_and(|&count| count > 20), "{seen:?}");
        }
    }
}

/// Whole sample programs on large trees and on the deepest.
#[test]
fn sample_programs_mean_what_they_give() {
    let mut random = Random::new(441);
    let mut lent = Lent::new();
    let folder = concat!(env!("CARGO_MANIFEST_DIR"), "/../../samples/programs");
    let trees = [
        balanced(&mut random, 1 << 14),
        reference::generate::tree(&mut random, 10_000),
        mixed_caterpillar(&mut random, 1_000),
    ];
    for tree in trees {
        let tokens = with_moderate_labels(&mut random, &tree).tokens();
        for name in ["depth", "grow", "prune", "sum", "tips"] {
            let file = std::fs::read(format!("{folder}/{name}.program")).unwrap();
            let both = Both::new(&mut lent, &file, &tokens, 10_000_000, tokens.len());
            both.assert_equal(&tokens);
        }
    }
}
