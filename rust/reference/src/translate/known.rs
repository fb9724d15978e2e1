//! Programs with their code by hand: document 01's worked programs, its traps,
//! and programs at the limits; and files that are refused.

use crate::machine::known::text::code;
use crate::order::known::text::program;
use crate::program::{lay_out, Program};
use crate::tree::Refusal;

mod computed;
mod deep;
mod names;
mod refused;
mod tables;

pub use computed::{function_31, longest_code, most_nodes};

/// A program file and what the translator answers.
#[derive(Clone, Debug)]
pub struct Known {
    /// What it shows.
    pub name: &'static str,
    pub file: Vec<u8>,
    /// The code as bytes.
    pub answer: Result<Vec<u8>, Refusal>,
}

/// All of them; the first is document 01's Grow.
pub fn all() -> Vec<Known> {
    [translated(), refused::files()].concat()
}

/// Those that are translated.
pub fn translated() -> Vec<Known> {
    let tables = [
        tables::WORKED,
        names::OF_TEMPORARIES,
        names::OF_ARGUMENTS,
        tables::ENDS,
        tables::BRANCHES,
        tables::CALLS,
    ];
    let mut all: Vec<Known> = tables.into_iter().flat_map(table).collect();
    all.extend([function_31(), most_nodes(), longest_code()].map(laid_down));
    all.extend(deep::programs().into_iter().map(laid_down));
    all
}

/// A table with a program in each line: what it shows, its functions, and its
/// code.
fn table(text: &'static str) -> Vec<Known> {
    let lines = text.lines().filter(|line| !line.is_empty());
    let known = lines.map(|line| {
        let columns: Vec<&str> = line.split('|').map(str::trim).collect();
        let [name, functions, instructions] = columns[..] else {
            panic!("not three columns: {line}");
        };
        laid_down((name, program(functions), code(instructions)))
    });
    known.collect()
}

fn laid_down((name, program, code): (&'static str, Program, Vec<u8>)) -> Known {
    Known {
        name,
        file: lay_out(&program.records()),
        answer: Ok(code),
    }
}

/// Document 01's listing of Grow.
pub const GROW_LISTING: &str = "\
code 13
0 10 0 9 0
1 11 0 0 0
2 7 0 0 0
3 1 0 0 0
4 0 0 0 1
5 2 0 0 0
6 9 0 0 0
7 6 0 0 0
8 4 0 12 0
9 8 0 0 0
10 12 0 0 0
11 12 0 0 0
12 13 0 0 0
";

/// A listing with a number below 0 and a call with an argument: "number: Call
/// 1 on 0, Const -2147483648 / number 1: Call 0 on 0".
pub const NEGATIVE_LISTING: &str = "\
code 5
0 0 0 0 -2147483648
1 12 1 3 0
2 13 1 0 0
3 12 0 0 0
4 13 1 0 0
";

/// A listing or its one line, for a program in the words of document 01.
pub const LISTINGS: [(&str, &str); 6] = [
    (
        "tree: Case 0, Leaf, Add, Var 0, Const 1, Node, Call 0 on 1, Call 0 on 2",
        GROW_LISTING,
    ),
    (
        "number: Call 1 on 0, Const -2147483648 / number 1: Call 0 on 0",
        NEGATIVE_LISTING,
    ),
    ("number: Call 0 on 0", "code 2\n0 12 0 0 0\n1 13 1 0 0\n"),
    (
        "tree: Case 0, Leaf, Var 0, Node, Call 0 on 2, Call 0 on 1",
        "refused 11 6\n",
    ),
    ("number: Case 0, Const 1, Call 0 on 1", "refused 11 2\n"),
    ("number: Var 0", "refused 9 2\n"),
];

/// The program files of these listings, with the listings.
pub fn listings() -> Vec<(Vec<u8>, &'static str)> {
    let files = LISTINGS.map(|(text, listing)| (lay_out(&program(text).records()), listing));
    files.to_vec()
}
