//! Programs that pass the checks, each run beside the performance of its code
//! and beside the reference. A run knows that its code comes from a checked
//! program; `perform` takes any code.

use reference::machine::known::programs::{listed, FILL, GROW, SUM};
use reference::{assemble, generate, translate, Random, TestCase, Token, Trace, Tree};

use super::programs::{fill, sample, texts, SAMPLES};
use super::*;

/// More bytes than a program here gives on a small tree.
pub const ROOM: usize = 400;

/// A program that passes the checks.
pub struct Checked {
    name: String,
    file: Vec<u8>,
    code: Vec<u8>,
}

impl Checked {
    /// The library translates it as the reference does.
    pub fn new(name: &str, file: Vec<u8>) -> Checked {
        let code = translate(&file).unwrap_or_else(|refusal| panic!("{name}: {refusal:?}"));
        assert!(hogvax::translate(&file).as_ref() == Ok(&code), "{name}");
        let name = name.to_owned();
        Checked { name, file, code }
    }

    /// The code, as the reference gives it.
    pub fn code(&self) -> &[u8] {
        &self.code
    }

    /// A run with just enough work words and code bytes.
    pub fn case(&self, input: &[u8], fuel: u64, output: usize) -> RunCase {
        RunCase::new(&self.file, input, fuel, output, self.code.len())
    }

    /// What the run gives: in every field and every byte what the reference
    /// gives, and what `perform` gives on the code. With the reference's trace.
    pub fn traced(&self, lent: &mut Lent, case: &RunCase) -> (Gave, Trace) {
        let RunCase {
            input,
            fuel,
            output,
            ..
        } = case;
        let performed = TestCase {
            code: self.code.clone(),
            input: input.clone(),
            fuel: *fuel,
            output: *output,
        };
        let (ran, trace, written) = performed.perform_traced();
        let gave = Gave::told(ran, written, self.code.clone());
        lent.assert_gives(&self.name, case, &gave);
        let mut written = vec![FILLER; *output];
        let ran = hogvax::perform_in(&mut lent.work, &self.code, input, *fuel, &mut written);
        assert_eq!(ran, gave.ran(), "{}: {case:?}", self.name);
        assert!(written == gave.output, "{}: {case:?}", self.name);
        (gave, trace)
    }

    /// The same without the trace.
    pub fn answer(&self, lent: &mut Lent, input: &[u8], fuel: u64, output: usize) -> Gave {
        self.traced(lent, &self.case(input, fuel, output)).0
    }
}

/// The samples, Fill, and the programs of `samples/texts`.
pub fn worked() -> Vec<Checked> {
    let mut all: Vec<Checked> = SAMPLES
        .iter()
        .map(|name| Checked::new(name, sample(name)))
        .collect();
    all.push(Checked::new("fill", file(&fill())));
    for (name, file) in texts() {
        all.push(Checked::new(&name, file));
    }
    assert_eq!(all.len(), 5 + 1 + 43);
    all
}

/// Labels that the programs tell apart, whose sums are small.
const LABELS: [i32; 8] = [0, 0, 1, 2, 3, 7, 9, -1];

/// Every shape of up to so many tips.
pub fn small_trees(random: &mut Random, tips: usize) -> Vec<Tree> {
    let shapes = (1..=tips).flat_map(generate::shapes);
    shapes
        .map(|shape| labelled(&shape, || random.pick(&LABELS)))
        .collect()
}

/// Every shape of up to four tips, and some with labels whose sums are out of
/// range.
pub fn small_and_large(random: &mut Random) -> Vec<Tree> {
    let mut trees = small_trees(random, 4);
    let shapes = [generate::shapes(2), generate::shapes(3)].concat();
    for large in [[i32::MAX; 3], [i32::MIN; 3], [i32::MAX, 1, i32::MIN]] {
        for shape in &shapes {
            let mut labels = large.into_iter();
            trees.push(labelled(shape, || labels.next().expect("a label")));
        }
    }
    trees
}

/// The tree with these labels.
pub fn labelled(tree: &Tree, mut label: impl FnMut() -> i32) -> Tree {
    let tokens = tree.prefix().map(|token| match token {
        Token::Leaf(_) => Token::Leaf(label()),
        Token::Node => Token::Node,
    });
    Tree::from_prefix(&tokens.collect::<Vec<_>>()).expect("the same shape")
}

#[test]
fn the_worked_programs_are_those_of_the_listings() {
    let worked = worked();
    for (name, listing) in [("grow", GROW), ("sum", SUM), ("fill", FILL)] {
        let named = worked.iter().find(|one| one.name == name);
        let code = named.expect("a program").code();
        assert!(code == assemble(&listed(listing)), "{name}");
    }
}
