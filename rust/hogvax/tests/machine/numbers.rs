//! The number that a run gives.

use reference::assemble;
use reference::machine::mnemonic::{push, ret};

use super::*;

/// In the answer's slot for it, the number is sign-extended to 64 bits.
#[test]
fn the_number_is_sign_extended() {
    let mut lent = Lent::new();
    for (number, word) in [
        (0, 0),
        (1, 1),
        (0x7fff_ffff, 0x7fff_ffff),
        (-0x8000_0000, 0xffff_ffff_8000_0000),
        (-3, u64::MAX - 2),
        (-1, u64::MAX),
    ] {
        let case = TestCase {
            code: assemble(&[push(number), ret(1)]),
            input: vec![],
            fuel: 2,
            output: 0,
        };
        let gave = lent.answer(&case);
        assert_eq!((gave.word(), gave.ran().number), (word, number));
    }
}
