//! Inputs made at random: small trees, damaged ones and any bytes.

use super::*;

fn small_tree(random: &mut Random) -> Vec<u8> {
    let tips = 1 + random.below(24);
    generate::tree(random, tips).tokens()
}

pub fn damaged(random: &mut Random, mut bytes: Vec<u8>) -> Vec<u8> {
    for _ in 0..random.below(4) {
        bytes = generate::damaged(random, &bytes);
    }
    bytes
}

pub fn cut(random: &mut Random, mut bytes: Vec<u8>) -> Vec<u8> {
    bytes.truncate(random.below(bytes.len() + 1));
    bytes
}

fn any_bytes(random: &mut Random) -> Vec<u8> {
    (0..random.below(40)).map(|_| random.byte()).collect()
}

fn tags(random: &mut Random) -> Vec<u8> {
    let length = random.below(80);
    generate::tag_like_bytes(random, length)
}

#[test]
fn random_inputs_are_answered_as_the_reference_does() {
    let mut random = Random::new(11);
    let mut seen = Seen::default();
    for _ in 0..1_000_000 {
        let whole = small_tree(&mut random);
        seen.count(assert_like_reference(&whole));
        seen.count(assert_like_reference(&cut(&mut random, whole.clone())));
        seen.count(assert_like_reference(&damaged(&mut random, whole)));
        seen.count(assert_like_reference(&tags(&mut random)));
        seen.count(assert_like_reference(&any_bytes(&mut random)));
    }
    seen.assert_all_but_too_deep(300_000);
}
