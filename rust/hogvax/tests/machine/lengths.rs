//! Code and outputs of every length.

use reference::machine::mnemonic::{call, ifnot, jump, push, read_tag, ret};
use reference::machine::INSTRUCTION_LIMIT;
use reference::{assemble, Instruction};

use super::cases::short;
use super::*;

// Code

/// Cut at every byte, code is performed until an address without 8 whole bytes
/// is come to, which gives 19.
#[test]
fn code_cut_at_every_byte() {
    let mut lent = Lent::new();
    for case in short(210, 300, 2_000) {
        let (whole, trace) = lent.answer_traced(&case);
        for length in 0..=case.code.len() {
            let mut cut = case.clone();
            cut.code.truncate(length);
            let gave = lent.answer(&cut);
            let held = |address: &usize| *address < length / 8;
            let units = trace.addresses.iter().take_while(|&one| held(one)).count() as u64;
            assert!(gave.opens(&whole), "{cut:?}");
            if units < whole.units() || !held(&trace.address) && whole.number != 14 {
                assert_eq!((gave.number, gave.units()), (19, units), "{cut:?}");
            } else {
                assert_eq!(gave, whole, "{cut:?}");
            }
        }
    }
}

/// The ways to come to an address: these instructions, and an input.
fn ways(address: usize) -> [(Vec<Instruction>, Vec<u8>); 4] {
    let to = address as u16;
    [
        (vec![jump(to)], vec![]),
        (vec![push(1), ifnot(to)], vec![]),
        (vec![read_tag(to)], vec![2]),
        (vec![call(to, 0), ret(0)], vec![]),
    ]
}

/// Code of so many bytes: these instructions, then returns.
fn returns_behind(first: &[Instruction], length: usize) -> Vec<u8> {
    let mut code = assemble(first);
    while code.len() < length {
        code.extend(ret(0).to_bytes());
    }
    code.truncate(length);
    code
}

/// "an address from 4,128 up, or without 8 whole bytes, holds no instruction"
#[test]
fn addresses_about_the_ends() {
    let mut lent = Lent::new();
    let last = 8 * INSTRUCTION_LIMIT;
    let lengths = (last - 17..=last + 33).chain([8 * 4_096, 8 * 5_000 + 5, 8 << 16]);
    let far = [4_095, 4_096, 4_999, 5_000, 8_191, 32_768, 65_535];
    let addresses: Vec<usize> = (4_120..4_135).chain(far).collect();
    let mut ended = 0;
    for length in lengths {
        for &address in &addresses {
            for (first, input) in ways(address) {
                let code = returns_behind(&first, length);
                let (fuel, output) = (9, 3);
                let case = TestCase {
                    code,
                    input,
                    fuel,
                    output,
                };
                let gave = lent.call(&case);
                let holds = address < INSTRUCTION_LIMIT && 8 * address + 8 <= length;
                let number = if holds { 0 } else { 19 };
                assert_eq!(gave.number, number, "address {address}: {case:?}");
                ended += usize::from(holds);
            }
        }
    }
    assert!(ended > 1_000, "{ended} ended");
}

// Outputs

/// With room for less than a run writes, it gives 17 at the first tag or
/// number that has none; more room changes nothing. Runs that write much, some
/// of them without end, are left out.
#[test]
fn outputs_of_every_length() {
    let mut lent = Lent::new();
    let mut seen = [0; 4];
    for case in short(211, 600, 2_000) {
        let with_room = |output| TestCase {
            output,
            ..case.clone()
        };
        let whole = lent.answer(&with_room(1_000));
        if whole.written() > 200 {
            continue;
        }
        for length in 0..=whole.written() + 5 {
            let gave = lent.answer(&with_room(length));
            assert!(gave.opens(&whole), "{case:?}");
            if length < whole.written() {
                let free = length - gave.written();
                assert_eq!(gave.number, 17, "{case:?}");
                seen[free] += 1;
            } else {
                assert_eq!(gave.ran(), whole.ran(), "{case:?}");
            }
        }
    }
    println!("{seen:?}");
    assert!(seen.iter().all(|&count| count > 100), "{seen:?}");
}
