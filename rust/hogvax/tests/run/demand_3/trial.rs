//! A checked program and a tree, run with many fuels and outputs.

use std::fmt;

use hogvax::Ran;
use reference::generate::tag_like_bytes;
use reference::machine::FILLER;
use reference::{shown, Program, Random, RunCase, Tree};

use super::meaning::Meaning;
use super::seen::Seen;
use super::{file, Lent};

/// Every fuel up to 4n + 3 is tried where n is at most this.
const FEW: u64 = 30;

/// Every output length is tried where the result has at most so many bytes.
const SHORT: usize = 60;

/// More bytes than a result here has.
const ROOM: usize = 20_000;

pub struct Trial<'a> {
    program: &'a Program,
    file: Vec<u8>,
    tokens: Vec<u8>,
    meaning: Meaning,
    /// The bytes of the result, where it has one.
    result: Option<Vec<u8>>,
}

impl Trial<'_> {
    /// None where the evaluation is too long to be followed.
    pub fn new<'a>(program: &'a Program, tree: &Tree) -> Option<Trial<'a>> {
        let meaning = Meaning::of(program, tree)?;
        Some(Trial {
            program,
            file: file(program),
            tokens: tree.tokens(),
            result: meaning.ended().map(|ended| ended.value.bytes()),
            meaning,
        })
    }

    /// The bytes of the result, 0 where there is none.
    fn length(&self) -> usize {
        self.result.as_ref().map_or(0, Vec::len)
    }

    /// Every fuel with room for the result and with any room; every room with
    /// the greatest fuel and with any fuel.
    pub fn check_all(&self, lent: &mut Lent, random: &mut Random, seen: &mut Seen) {
        let (fuels, rooms) = (self.fuels(random), self.rooms(random));
        let length = random.below(6);
        let behind = match random.below(2) {
            0 => tag_like_bytes(random, length),
            _ => (0..length).map(|_| random.byte()).collect(),
        };
        let mut check = |fuel, room| {
            let ran = self.check(lent, &behind, fuel, room);
            self.count_ends(&ran, seen);
            self.count_fuels(&ran, fuel, room, seen);
        };
        for &fuel in &fuels {
            check(fuel, self.length() + ROOM);
            check(fuel, random.pick(&rooms));
        }
        for &room in &rooms {
            check(u64::MAX, room);
            check(random.pick(&fuels), room);
        }
    }

    /// All fuels where they are few; else those about the ones that matter,
    /// and some others.
    fn fuels(&self, random: &mut Random) -> Vec<u64> {
        if let Meaning::Breaks { units } = self.meaning {
            let some = (0..20).map(|_| random.below(1 + units as usize) as u64);
            return some
                .chain([units, units + 1, units + 2, u64::MAX])
                .collect();
        }
        let Some(ended) = self.meaning.within() else {
            let some = (0..20).map(|_| random.below(5_000) as u64);
            return some.chain([0, 1, 2, 1_023, 1_024, u64::MAX]).collect();
        };
        let (units, most) = (ended.units, 4 * ended.begun + 1);
        if ended.begun <= FEW {
            return (0..=most + 2).chain([u64::MAX]).collect();
        }
        let some = (0..20).map(|_| random.below(most as usize) as u64);
        let about = [0, 1, 2, units - 1, units, units + 1, units + 2];
        let last = [most - 1, most, most + 1, most + 2, u64::MAX];
        some.chain(about).chain(last).collect()
    }

    /// From none to more than the result, or some of them.
    fn rooms(&self, random: &mut Random) -> Vec<usize> {
        let length = self.length();
        if length <= SHORT {
            return (0..=length + 5).collect();
        }
        let some = (0..20).map(|_| random.below(length));
        let about = [0, 1, 5, length - 1, length, length + 1];
        some.chain(about).collect()
    }

    /// "When any checked program is run over the stream on any tree's tokens,
    /// with anything after them, any fuel and any output length"
    fn check(&self, lent: &mut Lent, behind: &[u8], fuel: u64, room: usize) -> Ran {
        let mut run = |behind: &[u8]| {
            let input = [&self.tokens, behind].concat();
            lent.run(&RunCase::new(&self.file, &input, fuel, room, 0))
        };
        let (ran, output) = run(behind);
        // "neither answers nor output depend on what stands after the tree"
        assert!(run(&[]) == (ran, output.clone()), "{self}");
        // "the bytes read are opening bytes of that tree"
        assert!(ran.read <= self.tokens.len(), "{ran}, {self}");
        let (written, rest) = output.split_at(ran.written);
        assert!(rest.iter().all(|&byte| byte == FILLER), "{ran}, {self}");
        if let Some(result) = &self.result {
            // "the bytes written are opening bytes of the source's result"
            assert!(result.starts_with(written), "{ran}, {self}");
        }
        if ran.refused.is_none() {
            self.check_whole(&ran, fuel, room);
        } else {
            self.check_refusal(&ran, fuel, room);
        }
        ran
    }

    /// "For every other evaluation, endless ones included, no fuel suffices."
    /// "the run ends unrefused, the whole tree has been read, nothing past it,
    /// and the whole result written, or the same number given and nothing
    /// written." Its units are the sum of the units column, plus 1.
    fn check_whole(&self, ran: &Ran, fuel: u64, room: usize) {
        let Some(ended) = self.meaning.within() else {
            panic!("no fuel suffices, and {fuel} does: {self}");
        };
        assert!(room >= self.length(), "{self}");
        assert_eq!(ran.units, ended.units + 1, "{self}");
        assert!(ran.units <= fuel.min(4 * ended.begun + 1), "{self}");
        assert_eq!(ran.read, self.tokens.len(), "{self}");
        assert_eq!(ran.written, self.length(), "{self}");
        assert_eq!(ran.number, ended.value.number(), "{self}");
    }

    /// "every fuel from 4n + 1 up suffices, given output space for the
    /// result", and so does every fuel from the units on. 14 tells that the
    /// fuel is used up, 17 that the result has no room, 18 that there are too
    /// many calls, 21 that a sum is out of range.
    fn check_refusal(&self, ran: &Ran, fuel: u64, room: usize) {
        let refused = ran.refused.expect("a refusal");
        assert_eq!(
            (refused.position, ran.number),
            (ran.read as u64, 0),
            "{self}"
        );
        assert_eq!(refused.number == 14, ran.units == fuel, "{ran}, {self}");
        let free = room - ran.written;
        match (&self.meaning, refused.number) {
            (Meaning::Ends(ended), 14) => assert!(fuel <= ended.units, "{ran}, {self}"),
            (Meaning::Ends(_), 17) => assert!(room < self.length(), "{ran}, {self}"),
            (Meaning::Ends(_), _) => panic!("{ran}, fuel {fuel}, {self}"),
            (Meaning::Breaks { units }, 14) => assert!(fuel <= *units, "{ran}, {self}"),
            (Meaning::Breaks { units }, 21) => assert_eq!(ran.units, *units, "{self}"),
            (Meaning::EndsBeyond(_) | Meaning::Endless, 14 | 18) => {}
            (_, 17) => assert!(free < 4, "{ran}, {self}"),
            _ => panic!("{ran}, fuel {fuel}, {self}"),
        }
    }

    /// How the run ended, and how much it read and wrote.
    fn count_ends(&self, ran: &Ran, seen: &mut Seen) {
        let number = ran.refused.map_or(0, |refused| refused.number);
        let (has_result, tree) = (self.result.is_some(), self.length() > 0);
        let all_read = ran.read == self.tokens.len();
        let all_written = tree && ran.written == self.length();
        seen.see("ended with a tree", number == 0 && tree);
        seen.see("ended with a number", number == 0 && !tree);
        seen.see("cut by fuel", number == 14);
        seen.see("cut by the output", number == 17);
        seen.see("too many calls, with a result", number == 18 && has_result);
        seen.see(
            "too many calls, without a result",
            number == 18 && !has_result,
        );
        seen.see("a sum out of range", number == 21);
        let just_before = |units: u64| number == 14 && ran.units == units;
        let cut = matches!(self.meaning, Meaning::Breaks { units } if just_before(units));
        seen.see("cut by fuel at a sum out of range", cut);
        seen.see("nothing read", ran.read == 0);
        seen.see("part read", ran.read > 0 && !all_read);
        seen.see("all read", all_read);
        seen.see("nothing written", tree && ran.written == 0);
        seen.see("part written", tree && ran.written > 0 && !all_written);
        seen.see("all written", all_written);
        let cut = number == 14 && all_read && all_written;
        seen.see("all read and written, and cut by fuel", cut);
    }

    /// How much fuel and room there was, where it might be enough.
    fn count_fuels(&self, ran: &Ran, fuel: u64, room: usize, seen: &mut Seen) {
        let Some(ended) = self.meaning.within() else {
            return;
        };
        let (whole, most) = (ran.refused.is_none(), 4 * ended.begun + 1);
        seen.see("fuel for all but the last return", fuel == ended.units);
        seen.see("fuel for just all", whole && fuel == ended.units + 1);
        seen.see("enough fuel below 4n + 1", whole && fuel < most);
        seen.see("fuel of 4n + 1", whole && fuel == most);
        seen.see("fuel above 4n + 1", whole && fuel > most);
        let just = whole && room > 0 && room == self.length();
        seen.see("just room enough", just);
    }
}

impl fmt::Display for Trial<'_> {
    fn fmt(&self, f: &mut fmt::Formatter<'_>) -> fmt::Result {
        let (functions, tokens) = (&self.program.functions, shown(&self.tokens));
        write!(f, "{:?}: {functions:?} on {tokens}", self.meaning)
    }
}
