//! Files, inputs, fuels and lent buffers made at random.

use std::collections::BTreeMap;

use reference::generate::sources::{any_program_and_tree, any_source};
use reference::generate::{order_damage, ordered, programs};
use reference::generate::{tag_like_bytes, FileDamage, RecordDamage};
use reference::{check_program, Fault, Refusal};

use super::*;

/// A kind of damage.
#[derive(Clone, Copy, Debug)]
enum Damage {
    File(FileDamage),
    Records(RecordDamage),
    /// A fault of either pass.
    Program(Fault),
}

impl Damage {
    fn all() -> Vec<Damage> {
        let files = FileDamage::ALL.into_iter().map(Damage::File);
        let records = RecordDamage::ALL.into_iter().map(Damage::Records);
        let programs = Fault::ALL.into_iter().map(Damage::Program);
        files.chain(records).chain(programs).collect()
    }

    /// A file with this damage, and its refusal; none where there was no place
    /// for it.
    fn file(self, random: &mut Random) -> Option<(Vec<u8>, Refusal)> {
        let functions = 1 + random.below(4);
        let right = programs::program(random, functions, 40 * functions).records();
        match self {
            Damage::File(damage) => damage.apply(random, &lay_out(&right)),
            Damage::Records(damage) => {
                let (wrong, refusal) = damage.apply(random, &right)?;
                Some((lay_out(&wrong), refusal))
            }
            Damage::Program(fault) => {
                let right = ordered::program(random, functions, 20 * functions);
                let (wrong, found) = order_damage::apply(fault, random, &right)?;
                Some((file(&wrong), found.refusal()))
            }
        }
    }
}

/// A run of any kind; one in eight with damage of a kind at random.
fn any_case(random: &mut Random) -> SourceCase {
    let case = any_source(random);
    if random.below(8) > 0 {
        return case;
    }
    let damage = random.pick(&Damage::all());
    let damaged = damage.file(random);
    SourceCase {
        file: damaged.map_or(case.file, |(file, _)| file),
        fuel: case.fuel.min(MODERATE),
        ..case
    }
}

/// Which work words are too few: the values, the returns.
fn too_few(case: &SourceCase) -> [bool; 2] {
    [case.values < VALUE_WORDS, case.returns < RETURN_WORDS]
}

/// Every answer comes up, 11, 12 and 19 aside, which a source run never gives;
/// and 13 for either kind of work words alone.
#[test]
fn random_cases_are_answered_as_the_reference_does() {
    let mut random = Random::new(410);
    let mut lent = Lent::new();
    let (mut seen, mut short) = (BTreeMap::new(), BTreeMap::new());
    for _ in times(1_500, 10_000) {
        let case = any_case(&mut random);
        let gave = lent.answer(&case);
        *seen.entry(gave.number).or_insert(0) += 1;
        if gave.number == 13 {
            *short.entry(too_few(&case)).or_insert(0) += 1;
        }
    }
    println!("{seen:?} {short:?}");
    let answers = (0..=10).chain(13..=18).chain([20, 21]);
    assert!(seen.keys().copied().eq(answers), "{seen:?}");
    for alone in [[true, false], [false, true]] {
        assert!(short.contains_key(&alone), "{alone:?}: {short:?}");
    }
}

/// Programs that pass pass one. Of those that pass pass two and of the others
/// some end, some open too many calls, some come to a sum that is out of range and
/// some have a tree that is too deep.
#[test]
fn random_programs_are_answered_as_the_reference_does() {
    let mut random = Random::new(411);
    let mut lent = Lent::new();
    let mut seen = BTreeMap::new();
    for _ in times(800, 5_000) {
        let (program, tree) = any_program_and_tree(&mut random);
        let in_order = check_program(&program).is_ok();
        let case = SourceCase::new(&file(&program), &tree.tokens(), MODERATE, 100_000);
        let gave = lent.answer(&case);
        *seen.entry((in_order, gave.number)).or_insert(0) += 1;
    }
    println!("{seen:?}");
    for in_order in [false, true] {
        for number in [0, 18, 20, 21] {
            let count = seen.get(&(in_order, number)).copied().unwrap_or(0);
            assert!(count > 3, "{in_order}, {number}: {seen:?}");
        }
    }
    assert!(seen.contains_key(&(false, 14)), "{seen:?}");
}

/// "takes the first tree of a buffer": neither answer nor output depend on
/// what stands after it.
#[test]
fn bytes_behind_the_tree_do_not_matter() {
    let mut random = Random::new(412);
    let mut lent = Lent::new();
    let mut ended = 0;
    for _ in times(500, 2_500) {
        let (program, tree) = any_program_and_tree(&mut random);
        let tokens = tree.tokens();
        let case = SourceCase::new(&file(&program), &tokens, MODERATE / 10, 10_000);
        let alone = lent.call_into(&case);
        let length = 1 + random.below(9);
        let behind = tag_like_bytes(&mut random, length);
        let input = [tokens, behind].concat();
        let gave = lent.call_into(&SourceCase { input, ..case });
        assert_eq!(gave, alone, "{program:?}");
        ended += usize::from(gave.number == 0);
    }
    assert!(ended > 100, "{ended}");
}

/// Each kind of damage is refused as it is aimed, whatever else is wrong. A
/// fault of pass two is none for a source run.
#[test]
fn each_damage_to_a_file_gives_its_refusal() {
    let mut random = Random::new(413);
    let mut lent = Lent::new();
    let mut seen = [0; 13];
    for damage in Damage::all() {
        let mut count = 0;
        for _ in 0..8 {
            let Some((file, refusal)) = damage.file(&mut random) else {
                continue;
            };
            let case = SourceCase::new(&file, &[1, 5, 0, 0, 0], random.below(100) as u64, 50);
            let gave = lent.answer(&case);
            let (number, position) = (u32::from(refusal.number), refusal.position as u64);
            match number {
                11 | 12 => assert!(matches!(gave.number, 0 | 14 | 17 | 18 | 21), "{case:?}"),
                _ => assert_eq!(
                    (gave.number, gave.slots),
                    (number, refused_slots(position, 0))
                ),
            }
            seen[number as usize] += 1;
            count += 1;
        }
        assert!(count > 0, "{damage:?}");
    }
    assert!(seen[1..].iter().all(|&count| count > 0), "{seen:?}");
}
