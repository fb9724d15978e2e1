//! Programs with many tree names, nested Lets and calls among arguments, whose
//! values are known from how they are made.

use reference::generate::evaluated::SMALL_NUMBERS;
use reference::NODE_LIMIT;

use super::constructed::Constructed;
use super::*;

/// The library gives what is known; so does the reference.
fn check(lent: &mut Lent, constructed: &Constructed) {
    let Constructed {
        program,
        tokens,
        number,
        bytes,
        begun,
        ..
    } = constructed;
    let (written, room) = (bytes.len(), bytes.len() + 3);
    let output = [&bytes[..], &[FILLER; 3]].concat();
    let tree = reference::tree_measures(tokens).unwrap();
    let [written, tips, depth] = [written, tree.tips, tree.depth].map(|count| count as u64);
    let number = i64::from(*number) as u64;
    let expected = Gave {
        number: 0,
        slots: [0, *begun, written, number, tips, depth],
        output,
        code: vec![],
    };
    let case = SourceCase::new(&file(program), tokens, *begun, room);
    assert_eq!(lent.answer(&case), expected, "{program:?}");
    let gave = lent.call_into(&case.with_fuel(begun - 1));
    let slots = refused_slots(0, begun - 1);
    assert_eq!((gave.number, gave.slots), (14, slots), "{program:?}");
}

/// A sum is out of range: so say the library and the reference.
fn assert_refused(lent: &mut Lent, constructed: &Constructed) {
    let file = file(&constructed.program);
    let case = SourceCase::new(&file, &constructed.tokens, constructed.begun, 100_000);
    assert_eq!(lent.answer(&case).number, 21, "{:?}", constructed.program);
}

/// Small expressions and large ones, with up to 128 Cases around them: tree
/// names up to 255 are bound.
#[test]
fn constructed_programs_give_what_is_known() {
    let mut random = Random::new(450);
    let mut lent = Lent::new();
    let (mut checked, mut all_names, mut trees, mut outside) = (0, 0, 0, 0);
    for _ in times(200, 2_000) {
        let cases = random.pick(&[0, 1, 4, 20, 60, 127, 128]);
        let size = 1 + random.below(400);
        let constructed = Constructed::new(&mut random, cases, size);
        if constructed.program.nodes() > NODE_LIMIT {
            continue;
        }
        if !constructed.fits {
            assert_refused(&mut lent, &constructed);
            outside += 1;
            continue;
        }
        check(&mut lent, &constructed);
        checked += 1;
        all_names += usize::from(cases == 128);
        trees += usize::from(!constructed.bytes.is_empty());
    }
    println!("{checked}, {all_names} with all names, {trees} trees; {outside} out of range");
    assert!(checked > 20 && all_names > 3 && trees > 5, "{checked}");
    assert!(outside > 3, "{outside}");
    assert!(trees < checked, "no numbers");
}

/// Lets nested as deep as the words allow, each number the sum of two that are
/// named before; with a sum around each third, so that words and names differ.
#[test]
fn lets_are_nested_up_to_16_words() {
    let mut random = Random::new(451);
    let mut lent = Lent::new();
    for _ in times(100, 300) {
        let (body, number, begun) = lets(&mut random, &mut vec![], 0);
        let constructed = Constructed {
            program: Program::new(vec![number_valued(0, body)]),
            tokens: vec![1, 5, 0, 0, 0],
            number,
            bytes: vec![],
            begun,
            fits: true,
        };
        check(&mut lent, &constructed);
    }
}

/// An expression with so many words below it, its value, and the expressions
/// begun.
fn lets(random: &mut Random, names: &mut Vec<i32>, words: usize) -> (Expr, i32, u64) {
    let (number, value, begun) = named(random, names);
    if words >= 14 {
        return (number, value, begun);
    }
    if random.below(3) == 0 {
        let (rest, other, more) = lets(random, names, words + 1);
        let sum = value.checked_add(other).expect("small numbers");
        return (Expr::plus(number, rest), sum, 1 + begun + more);
    }
    names.push(value);
    let (body, value, more) = lets(random, names, words + 1);
    (Expr::let_in(number, body), value, 1 + begun + more)
}

/// The sum of two numbers that are named, or a constant where there are none.
/// It takes two words.
fn named(random: &mut Random, names: &[i32]) -> (Expr, i32, u64) {
    if names.is_empty() || random.below(4) == 0 {
        let number = random.pick(&SMALL_NUMBERS);
        return (Expr::constant(number), number, 1);
    }
    let [left, right] = [0, 1].map(|_| random.below(names.len()));
    let sum = names[left].checked_add(names[right]);
    let sum = sum.expect("small numbers");
    let expr = Expr::plus(Expr::var(left as u8), Expr::var(right as u8));
    (expr, sum, 3)
}
