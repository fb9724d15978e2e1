//! Tokens printed as Newick text.

use hogvax::newick::{print, read, Trees};
use hogvax::Refused;

use super::*;

#[test]
fn known_trees_are_printed() {
    let (least, most) = (i32::MIN.to_le_bytes(), i32::MAX.to_le_bytes());
    let extremes = [&[2, 1][..], &least, &[1], &most].concat();
    for (tokens, text) in [
        (&[][..], ""),
        (&[1, 5, 0, 0, 0], "5;\n"),
        (&[1, 255, 255, 255, 255], "-1;\n"),
        (&[2, 1, 5, 0, 0, 0, 1, 7, 0, 0, 0], "(5,7);\n"),
        (&[1, 5, 0, 0, 0, 1, 7, 0, 0, 0], "5;\n7;\n"),
        (&extremes, "(-2147483648,2147483647);\n"),
    ] {
        assert_eq!(print(tokens).as_deref(), Ok(text));
    }
}

/// The text is the reference's, and reading it gives the same tokens.
#[test]
fn random_trees_are_printed_and_read_back() {
    let mut random = Random::new(401);
    let mut seen = [0; 6];
    for _ in 0..10_000 {
        let count = random.below(seen.len());
        seen[count] += 1;
        let trees = small_trees(&mut random, count);
        let tokens = tokens(&trees);
        let lines = trees.iter().map(|tree| format!("{};\n", text(tree)));
        let printed = print(&tokens).unwrap();
        assert_eq!(printed, lines.collect::<String>());
        let read = read(printed.as_bytes());
        let (lengths, names) = (0, 0);
        let back = Trees {
            tokens,
            trees: count,
            lengths,
            names,
        };
        assert_eq!(read, Ok(back), "{printed}");
    }
    assert!(seen.iter().all(|&count| count > 0), "{seen:?}");
}

#[test]
fn a_long_tree_is_printed_and_read_back() {
    let mut random = Random::new(402);
    let tree = generate::balanced(&mut random, 1 << 17);
    let printed = print(&tree.tokens()).unwrap();
    assert_eq!(printed, format!("{};\n", text(&tree)));
    let read = read(printed.as_bytes()).unwrap();
    assert!(read.tokens == tree.tokens());
}

/// The refusal of the first tree that is refused, its position counted from the
/// start of the tokens.
fn first_refusal(tokens: &[u8]) -> Option<Refused> {
    let mut start = 0;
    while start < tokens.len() {
        match reference::tree_end(&tokens[start..]) {
            Ok(length) => start += length,
            Err(refusal) => {
                return Some(Refused {
                    number: refusal.number.into(),
                    position: (start + refusal.position) as u64,
                })
            }
        }
    }
    None
}

#[test]
fn refusals_count_from_the_start() {
    let mut random = Random::new(403);
    let (mut whole, mut ended, mut not_a_tag, mut in_first, mut later) = (0, 0, 0, 0, 0);
    for _ in 0..20_000 {
        let count = 1 + random.below(4);
        let trees = small_trees(&mut random, count);
        let first = trees[0].tokens().len() as u64;
        let tokens = generate::damaged(&mut random, &tokens(&trees));
        let refused = first_refusal(&tokens);
        assert_eq!(print(&tokens).err(), refused);
        match refused {
            None => whole += 1,
            Some(refused) if refused.position < first => in_first += 1,
            Some(_) => later += 1,
        }
        match refused.map(|refused| refused.number) {
            Some(15) => ended += 1,
            Some(16) => not_a_tag += 1,
            _ => {}
        }
    }
    let seen = [whole, ended, not_a_tag, in_first, later];
    assert!(seen.iter().all(|&count| count > 100), "{seen:?}");
}

#[test]
fn a_tree_that_is_too_deep_is_refused() {
    let mut random = Random::new(404);
    let leaf = [1, 9, 0, 0, 0];
    for make in CATERPILLARS {
        let whole = make(&mut random, 1_024);
        let printed = print(&[&leaf, &whole.tokens()[..]].concat());
        assert_eq!(printed, Ok(format!("9;\n{};\n", text(&whole))));
        let deeper = [&leaf, &make(&mut random, 1_025).tokens()[..]].concat();
        let refused = print(&deeper).unwrap_err();
        assert_eq!(refused.number, 20);
        assert_eq!(Some(refused), first_refusal(&deeper));
    }
    let refused = print(&vec![2; 10_000_000]).unwrap_err();
    assert_eq!(refused.to_string(), "refused 20 1024");
}
