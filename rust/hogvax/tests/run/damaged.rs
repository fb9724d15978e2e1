//! Small trees that are cut, or have a byte changed, at every place.

use reference::{Random, Token, Tree, LEAF_TAG, NODE_TAG};

use super::checked::{small_and_large, small_trees, worked, Checked, ROOM};
use super::*;

/// The offsets of a tree's tags and of the bytes of its labels.
fn offsets(tree: &Tree) -> (Vec<usize>, Vec<usize>) {
    let (mut tags, mut labels, mut offset) = (Vec::new(), Vec::new(), 0);
    for token in tree.prefix() {
        tags.push(offset);
        offset += 1;
        if token != Token::Node {
            labels.extend(offset..offset + 4);
            offset += 4;
        }
    }
    (tags, labels)
}

/// Bytes that are no tag, the last of them any.
fn no_tags(random: &mut Random) -> [u8; 4] {
    let any = loop {
        let byte = random.byte();
        if ![LEAF_TAG, NODE_TAG].contains(&byte) {
            break byte;
        }
    };
    [0, 3, 255, any]
}

/// The tokens with another byte at this offset.
fn with_byte(tokens: &[u8], offset: usize, byte: u8) -> Vec<u8> {
    let mut changed = tokens.to_vec();
    changed[offset] = byte;
    changed
}

/// With fuel and room enough.
fn whole(lent: &mut Lent, program: &Checked, input: &[u8]) -> Ran {
    program.answer(lent, input, u64::MAX, ROOM).ran()
}

/// This refusal, which is the tree reader's.
fn assert_refused(lent: &mut Lent, program: &Checked, input: &[u8], number: u32) {
    let refused = whole(lent, program, input).refused;
    assert_eq!(refused.map(|refused| refused.number), Some(number));
    assert_eq!(refused, hogvax::tree(input).err());
}

/// Every cut gives 15, and every byte that is no tag where a tag is due 16.
#[test]
fn trees_cut_and_without_a_tag_at_every_place() {
    let random = &mut Random::new(380);
    let mut lent = Lent::exact();
    let trees = small_trees(random, 4);
    for program in worked() {
        for tree in &trees {
            let (tokens, (tags, _)) = (tree.tokens(), offsets(tree));
            assert_eq!(whole(&mut lent, &program, &tokens).refused, None);
            for length in 0..tokens.len() {
                assert_refused(&mut lent, &program, &tokens[..length], 15);
            }
            for &tag in &tags {
                for byte in no_tags(random) {
                    let changed = with_byte(&tokens, tag, byte);
                    assert_refused(&mut lent, &program, &changed, 16);
                    assert_refused(&mut lent, &program, &changed[..tag + 1], 16);
                }
            }
        }
    }
}

/// A label may have any bytes, those of tags among them: the whole tree is read,
/// unless a sum is out of range.
#[test]
fn every_byte_of_a_label_changed() {
    let random = &mut Random::new(381);
    let mut lent = Lent::exact();
    let trees = small_and_large(random);
    let mut seen = [0; 2];
    for program in worked() {
        for tree in &trees {
            let (tokens, (_, labels)) = (tree.tokens(), offsets(tree));
            for &offset in &labels {
                for byte in [0, 1, 2, 0x7f, 0x80, 0xff, random.byte()] {
                    let ran = whole(&mut lent, &program, &with_byte(&tokens, offset, byte));
                    match ran.refused.map(|refused| refused.number) {
                        None => assert_eq!(ran.read, tokens.len()),
                        number => assert_eq!(number, Some(21)),
                    }
                    seen[usize::from(ran.refused.is_some())] += 1;
                }
            }
        }
    }
    println!("{seen:?}");
    assert!(seen.iter().all(|&count| count > 100), "{seen:?}");
}
