//! Fuels and output lengths about the exact ones.

use reference::evaluate::known;
use reference::generate::evaluated::small_tree;
use reference::generate::sources::any_program_and_tree;
use reference::Tree;

use super::*;

/// Every fuel is tried where at most so many expressions begin.
const FEW: u64 = 40;

/// Every output length is tried where the result has at most so many bytes.
const SHORT: usize = 40;

/// What an evaluation comes to that stops by itself.
struct Meant {
    file: Vec<u8>,
    tokens: Vec<u8>,
    /// The number 0, and the bytes of the result; or the refusal 18 or 21, and
    /// its position.
    number: u32,
    position: u64,
    result: Vec<u8>,
    /// The expressions begun, and the number given.
    begun: u64,
    given: u64,
    /// The tips and the depth of the tree.
    tree: [u64; 2],
}

impl Meant {
    /// None where the tree is refused, and where the evaluation is too long.
    fn new(lent: &mut Lent, program: &Program, tree: &Tree) -> Option<Meant> {
        let (file, tokens) = (file(program), tree.tokens());
        let case = SourceCase::new(&file, &tokens, MODERATE, 100_000);
        let gave = lent.answer(&case);
        let [position, begun, written, given, ..] = gave.slots;
        matches!(gave.number, 0 | 18 | 21).then(|| Meant {
            file,
            tokens,
            number: gave.number,
            position,
            result: gave.output[..written as usize].to_vec(),
            begun,
            given,
            tree: [tree.tips(), tree.depth()].map(|count| count as u64),
        })
    }

    /// What a run with this fuel and an output of so many bytes gives: 14 with
    /// less fuel than expressions begin; else 18 or 21, or 17 with less room than
    /// the result has bytes.
    fn with(&self, fuel: u64, room: usize) -> Gave {
        let mut output = vec![FILLER; room];
        let (number, slots) = if fuel < self.begun {
            (14, refused_slots(0, fuel))
        } else if self.number != 0 {
            (self.number, refused_slots(self.position, self.begun))
        } else if room < self.result.len() {
            (17, refused_slots(0, self.begun))
        } else {
            output[..self.result.len()].copy_from_slice(&self.result);
            let (written, [tips, depth]) = (self.result.len() as u64, self.tree);
            (0, [0, self.begun, written, self.given, tips, depth])
        };
        Gave {
            number,
            slots,
            output,
            code: vec![],
        }
    }

    /// All fuels where they are few; else those about the exact one. Then more
    /// than 32 bits hold: some are too little in them.
    fn fuels(&self, random: &mut Random) -> Vec<u64> {
        let begun = self.begun;
        let any = random.below(begun as usize) as u64;
        let mut fuels = match begun {
            0..=FEW => (0..begun + 3).collect(),
            _ => vec![0, 1, any, begun - 2, begun - 1, begun, begun + 1],
        };
        fuels.extend([1 << 32, (1 << 32) + begun - 1, 1 << 63, u64::MAX]);
        fuels
    }

    /// From none to more than the result, or those about the exact one.
    fn rooms(&self, random: &mut Random) -> Vec<usize> {
        let length = self.result.len();
        if length <= SHORT {
            return (0..length + 4).collect();
        }
        let any = random.below(length);
        vec![0, 1, any, length - 5, length - 1, length, length + 1]
    }

    /// Every fuel with room for the result and with any room; every room with
    /// just enough fuel, one unit less, and any fuel. Counts the answers.
    fn check(&self, lent: &mut Lent, random: &mut Random, seen: &mut [usize; 22]) {
        let (fuels, rooms) = (self.fuels(random), self.rooms(random));
        let mut check = |fuel, room| {
            let case = SourceCase::new(&self.file, &self.tokens, fuel, room);
            let (gave, expected) = (lent.call_into(&case), self.with(fuel, room));
            assert!(gave == expected, "{gave:?} and not {expected:?}: {case:?}");
            seen[gave.number as usize] += 1;
        };
        for &fuel in &fuels {
            check(fuel, self.result.len());
            check(fuel, random.pick(&rooms));
        }
        for &room in &rooms {
            check(self.begun, room);
            check(self.begun - 1, room);
            check(random.pick(&fuels), room);
        }
    }
}

fn assert_all_seen(seen: [usize; 22]) {
    for number in [0, 14, 17, 18, 21] {
        assert!(seen[number] > 0, "answer {number} was not seen: {seen:?}");
    }
}

#[test]
fn fuels_and_rooms_of_random_programs() {
    let mut random = Random::new(420);
    let (mut lent, mut seen) = (Lent::new(), [0; 22]);
    let mut stopped = 0;
    for _ in times(150, 1_500) {
        let (program, tree) = any_program_and_tree(&mut random);
        let tree = match random.below(2) {
            0 => tree,
            _ => small_tree(&mut random),
        };
        if let Some(meant) = Meant::new(&mut lent, &program, &tree) {
            meant.check(&mut lent, &mut random, &mut seen);
            stopped += 1;
        }
    }
    println!("{stopped} stopped by themselves: {seen:?}");
    assert!(stopped > 20, "{stopped}");
    assert_all_seen(seen);
}

/// Those that are too long or too deep are left out.
#[test]
fn fuels_and_rooms_of_known_evaluations() {
    let mut random = Random::new(421);
    let (mut lent, mut seen) = (Lent::new(), [0; 22]);
    for known in known::all() {
        if let Some(meant) = Meant::new(&mut lent, &known.program, &known.tree) {
            meant.check(&mut lent, &mut random, &mut seen);
        }
    }
    assert_all_seen(seen);
}
