use super::known::Known;
use super::*;

/// The least fuel with which a run stops as it does without end, if it does.
fn least_fuel(known: &Known) -> Option<u64> {
    match known.stop.mark.number() {
        None => Some(known.answer.units),
        Some(14) => None,
        Some(_) => Some(known.answer.units + 1),
    }
}

/// "Fuel is looked at first": a refused instruction is come to with one unit
/// more than were performed, and the return that ends the run with its own.
#[test]
fn known_codes_at_their_least_fuel() {
    for known in known::all() {
        let Some(least) = least_fuel(&known) else {
            continue;
        };
        for fuel in [least, least + 1, u64::MAX - 1, u64::MAX] {
            let (ran, trace, bytes) = ran(&known.case.with_fuel(fuel));
            assert_eq!(ran, known.answer, "{}", known.name);
            assert_eq!(trace.stop, known.stop, "{}", known.name);
            assert_eq!(bytes, known.bytes, "{}", known.name);
        }
    }
}

/// With one unit less a run gives 14, and the refusal is hidden by it. The
/// bytes are the same: neither a refused instruction nor a return reads or
/// writes.
#[test]
fn known_codes_with_a_unit_less() {
    for known in known::all() {
        let Some(fuel) = least_fuel(&known).and_then(|least| least.checked_sub(1)) else {
            continue;
        };
        let (ran, trace, bytes) = ran(&known.case.with_fuel(fuel));
        let refusal = ran.refusal.expect("a refusal");
        assert_eq!((refusal.number, refusal.position), (14, ran.read));
        assert_eq!((ran.units, ran.number), (fuel, 0), "{}", known.name);
        let hidden = known.stop.mark.number().map(|_| known.stop.mark);
        assert_eq!(trace.stop.hidden, hidden, "{}", known.name);
        let counts = (known.answer.read, known.answer.written);
        assert_eq!((ran.read, ran.written), counts, "{}", known.name);
        assert_eq!(bytes, known.bytes, "{}", known.name);
    }
}

/// "Its answer gives units": the instructions performed, one by one.
#[test]
fn units_are_the_instructions_performed() {
    for known in known::all() {
        let (ran, trace, _) = ran(&known.case);
        let performed = trace.addresses.len() as u64;
        assert_eq!(ran.units, performed, "{}", known.name);
        assert!(ran.units <= known.case.fuel, "{}", known.name);
        let ended = ran.refusal.is_none();
        let last = trace.addresses.last().copied();
        assert!(!ended || last == Some(trace.address), "{}", known.name);
        let exhausted = ran.refusal.is_some_and(|refusal| refusal.number == 14);
        assert!(!exhausted || ran.units == known.case.fuel, "{}", known.name);
        assert!(trace.words <= VALUE_WORDS && trace.open <= OPEN_LIMIT);
    }
}

/// A run with less fuel is an opening part of the run with more, and what it
/// didn't write is untouched.
fn opening_parts(case: &TestCase, most: u64) {
    let mut before = ran(&case.with_fuel(0));
    for fuel in 0..most {
        let after = ran(&case.with_fuel(fuel));
        one_unit_apart(&before, &after);
        let (ran, _, bytes) = &after;
        let stopped = ran.units < fuel || ran.refusal.is_none();
        let exhausted = ran.refusal.is_some_and(|told| told.number == 14);
        assert!(stopped || exhausted, "{case:?}");
        assert!(bytes[ran.written..].iter().all(|&byte| byte == FILLER));
        before = after;
    }
}

/// At most one instruction is performed more, at most four bytes are read or
/// written more, and all before it is the same.
fn one_unit_apart(before: &(Ran, Trace, Vec<u8>), after: &(Ran, Trace, Vec<u8>)) {
    let (less, more) = (before.0, after.0);
    assert!((less.units..=less.units + 1).contains(&more.units));
    assert!((less.read..=less.read + 4).contains(&more.read));
    assert!((less.written..=less.written + 4).contains(&more.written));
    assert_eq!(more.units, after.1.addresses.len() as u64);
    assert!(after.1.addresses.starts_with(&before.1.addresses));
    assert!(after.2.starts_with(&before.2[..less.written]));
}

#[test]
fn known_codes_with_every_fuel() {
    for known in known::all() {
        opening_parts(&known.case, known.answer.units.min(60) + 2);
    }
}

/// Any fields, the opcode being mostly one of the fourteen and the others
/// mostly small.
fn any_instruction(random: &mut Random) -> Instruction {
    let opcode = random.below(15) as u8;
    let wide = random.below(20) == 0;
    let bound = if wide { 65_536 } else { 8 };
    Instruction {
        opcode,
        byte1: random.below(3) as u8,
        operand: random.below(bound) as u16,
        number: random.below(3) as u32,
    }
}

#[test]
fn random_codes_with_every_fuel() {
    let mut random = Random::new(5);
    for _ in 0..2_000 {
        let mut instructions: Vec<Instruction> = Vec::new();
        instructions.extend((0..3).map(mnemonic::push));
        instructions.extend((0..9).map(|_| any_instruction(&mut random)));
        let input = (0..12).map(|_| random.below(3) as u8).collect();
        let case = TestCase {
            code: assemble(&instructions),
            input,
            fuel: 0,
            output: random.below(12),
        };
        opening_parts(&case, 30);
    }
}
