//! What each program of `samples/texts` means: a function on trees, written
//! after the sentence that begins its text, and not after its records.

mod balance;
mod depth;
mod mask;
pub mod parts;
mod prune;
pub mod relabel;
mod select;
mod sum;
mod threshold;
mod tips;

use reference::{Tree, Value};

/// What a program means.
pub enum Meaning {
    /// It gives a tree.
    Tree(fn(&Tree) -> Tree),
    /// It gives a number. These numbers must come up where it is tried: one
    /// for each case of its sentence.
    Number(fn(&Tree) -> i32, &'static [i32]),
}

use Meaning::{Number, Tree as Gives};

/// The programs in the order of their names.
pub const MEANINGS: [(&str, Meaning); 43] = [
    ("balance-caterpillar", Number(balance::caterpillar, &[0, 1])),
    ("balance-cherries", Number(balance::cherries, &[0, 1, 2, 3])),
    ("balance-lean", Number(balance::lean, &[-1, 0, 1])),
    ("balance-level", Number(balance::level, &[-1, 0, 1, 2, 3])),
    (
        "balance-pitchforks",
        Number(balance::pitchforks, &[0, 1, 2]),
    ),
    ("balance-root", Number(balance::root, &[-1, 0, 1])),
    ("balance-sackin", Number(balance::sackin, &[0, 2, 5])),
    ("depth-at-tips", Gives(depth::at_tips)),
    ("depth-first-7", Number(depth::first_7, &[-1, 0, 1, 2, 3])),
    ("depth-greatest", Number(depth::greatest, &[0, 1, 2, 3, 4])),
    ("depth-least", Number(depth::least, &[0, 1, 2, 3])),
    (
        "depth-lineages-3",
        Number(depth::lineages_3, &[0, 2, 4, 6, 8]),
    ),
    ("mask-all-but-1-to-4", Gives(mask::all_but_1_to_4)),
    ("mask-label-7", Gives(mask::label_7)),
    ("mask-odd-depth", Gives(mask::odd_depth)),
    ("mask-odd-to-9", Gives(mask::odd_to_9)),
    ("prune-depth-3", Gives(prune::depth_3)),
    ("prune-ladder-0", Gives(prune::ladder_0)),
    ("prune-outgroup", Gives(prune::outgroup)),
    ("prune-right-parts", Gives(prune::right_parts)),
    ("relabel-add-one", Gives(relabel::add_one)),
    ("relabel-by-path", Gives(relabel::by_path)),
    ("relabel-purines", Gives(relabel::purines)),
    ("relabel-swap-0-1", Gives(relabel::swap_0_1)),
    (
        "select-first-not-0",
        Number(select::first_not_0, &[0, 1, 7]),
    ),
    ("select-labels-1-2-3", Number(select::labels_1_2_3, &[0, 1])),
    ("select-leftmost", Number(select::leftmost, &[0, 1, 7])),
    ("select-right-part", Gives(select::right_part)),
    ("select-rightmost", Number(select::rightmost, &[0, 1, 7])),
    ("sum-clades-depth-2", Gives(sum::clades_depth_2)),
    ("sum-even-depth", Number(sum::even_depth, &[0, 1, 7])),
    ("sum-known", Number(sum::known, &[0, 1, 7])),
    ("sum-labels", Number(sum::labels, &[-1, 0, 1, 7])),
    ("sum-left-part", Number(sum::left_part, &[-1, 0, 1, 7])),
    ("threshold-depth-2", Gives(threshold::depth_2)),
    (
        "threshold-greatest-depth-5",
        Number(threshold::greatest_depth_5, &[0, 1]),
    ),
    ("threshold-label-4", Gives(threshold::label_4)),
    ("threshold-tips-10", Number(threshold::tips_10, &[0, 1])),
    ("tips-clades-depth-2", Gives(tips::clades_depth_2)),
    ("tips-count", Number(tips::count, &[1, 2, 9, 10])),
    ("tips-label-7", Number(tips::label_7, &[0, 1, 2, 3])),
    ("tips-monophyly-7", Number(tips::monophyly_7, &[0, 1])),
    (
        "tips-pure-clades-7",
        Number(tips::pure_clades_7, &[0, 1, 2, 3]),
    ),
];

impl Meaning {
    pub fn of(&self, tree: &Tree) -> Value {
        match self {
            Gives(result) => Value::Tree(result(tree)),
            Number(result, _) => Value::Number(result(tree)),
        }
    }

    /// What the table of the programs calls the result.
    pub fn result(&self) -> &'static str {
        match self {
            Gives(_) => "tree",
            Number(..) => "number",
        }
    }
}
