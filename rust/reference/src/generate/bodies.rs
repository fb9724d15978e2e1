//! All short programs.

use crate::program::{kind, part_count, Expr, Function, Program, Record};

/// Records to choose from. Function 1, which may be called with one argument,
/// gives a number.
pub struct Alphabet {
    /// The greatest number name.
    pub numbers: u8,
    /// The greatest tree name of a Case.
    pub cases: u8,
    /// The greatest tree name of a Call of function 0.
    pub calls: u8,
    /// The greatest tree name of a Call of function 1, if it is called.
    pub calls_with_argument: Option<u8>,
    /// Leaf and Node.
    pub trees: bool,
}

/// Function 0 has no number parameters, function 1 has one.
const PARAMETERS: [u8; 2] = [0, 1];

impl Alphabet {
    /// Const, Var 0 and 1, Add, IfZero, Let, Leaf, Node, Case 0 to 4, and Call
    /// 0 on 0 to 4: in six records no more names can be bound.
    pub const SIX_RECORDS: Alphabet = Alphabet {
        numbers: 1,
        cases: 4,
        calls: 4,
        calls_with_argument: None,
        trees: true,
    };

    /// With a second function, which takes a number.
    pub const WITH_ARGUMENTS: Alphabet = Alphabet {
        numbers: 0,
        cases: 1,
        calls: 2,
        calls_with_argument: Some(2),
        trees: true,
    };

    fn records(&self) -> Vec<Record> {
        let record = |kind, a, b| Record { kind, a, b, i: 0 };
        let kinds = [kind::CONST, kind::ADD, kind::IF_ZERO, kind::LET];
        let mut records: Vec<Record> = kinds.map(|kind| record(kind, 0, 0)).to_vec();
        if self.trees {
            records.extend([kind::LEAF, kind::NODE].map(|kind| record(kind, 0, 0)));
        }
        records.extend((0..=self.numbers).map(|a| record(kind::VAR, a, 0)));
        records.extend((0..=self.cases).map(|a| record(kind::CASE, a, 0)));
        records.extend((0..=self.calls).map(|a| record(kind::CALL, a, 0)));
        if let Some(most) = self.calls_with_argument {
            records.extend((0..=most).map(|a| record(kind::CALL, a, 1)));
        }
        records
    }

    /// Calls `each` with every program whose function 0 is an expression of
    /// exactly so many of these records and gives a tree or a number. Function
    /// 1, where it is called, is Call 1 on 0, Var 0.
    pub fn every_program(&self, length: usize, tree_valued: bool, each: &mut impl FnMut(&Program)) {
        let with_parts = |record| (record, part_count(record, &PARAMETERS).expect("a kind"));
        let records: Vec<_> = self.records().into_iter().map(with_parts).collect();
        extend(&records, &mut Vec::new(), 1, length, &mut |body| {
            let mut functions = vec![Function {
                tree_valued,
                parameters: PARAMETERS[0],
                body: Expr::from_prefix(body).expect("one expression"),
            }];
            if self.calls_with_argument.is_some() {
                functions.push(Function {
                    tree_valued: false,
                    parameters: PARAMETERS[1],
                    body: Expr::call(0, 1, vec![Expr::var(0)]),
                });
            }
            each(&Program::new(functions));
        });
    }
}

/// Records with the numbers of their parts.
type Records = [(Record, usize)];

/// Calls `each` with every way to go on: `open` parts are still to come, and
/// `left` records.
fn extend(
    records: &Records,
    body: &mut Vec<(Record, usize)>,
    open: usize,
    left: usize,
    each: &mut impl FnMut(&Records),
) {
    if left == 0 && open == 0 {
        each(body);
    }
    if open == 0 || open > left {
        return;
    }
    for &(record, parts) in records {
        body.push((record, parts));
        extend(records, body, open - 1 + parts, left - 1, each);
        body.pop();
    }
}
