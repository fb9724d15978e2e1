//! Records by name: the nine kinds as the reference writes them.

use std::fmt;

pub const RECORD_BYTES: usize = 8;

/// The record of function 0, after the header, record 0.
pub const FUNCTION_0: usize = 1;

/// The eight bytes of a record. The header has the edition, the functions and
/// the nodes in the first three fields; a function has its result, its number
/// parameters and its node count there.
#[derive(Clone, Copy, Debug, PartialEq, Eq)]
pub struct Record {
    pub kind: u8,
    pub a: u8,
    pub b: u16,
    pub i: i32,
}

/// What a function or an expression gives.
#[derive(Clone, Copy, Debug, PartialEq, Eq)]
pub enum Type {
    Number,
    Tree,
}

impl fmt::Display for Type {
    fn fmt(&self, f: &mut fmt::Formatter<'_>) -> fmt::Result {
        f.write_str(match self {
            Type::Number => "number",
            Type::Tree => "tree",
        })
    }
}

/// A kind of node record.
pub struct Kind {
    pub name: &'static str,
    pub operands: Operands,
    /// What its parts are called. A Call's are its arguments, as many as the
    /// function has number parameters.
    pub parts: &'static [&'static str],
}

/// What follows the name of a kind.
#[derive(Clone, Copy, Debug, PartialEq, Eq)]
pub enum Operands {
    Nothing,
    /// A number, field i.
    Number,
    /// A number name, field a.
    NumberName,
    /// A tree name, field a.
    TreeName,
    /// A function, field b; then `on` and a tree name, field a.
    FunctionOnTree,
}

pub const CONST: u8 = 0;
pub const VAR: u8 = 1;
pub const ADD: u8 = 2;
pub const IF_ZERO: u8 = 3;
pub const LET: u8 = 4;
pub const LEAF: u8 = 5;
pub const NODE: u8 = 6;
pub const CASE: u8 = 7;
pub const CALL: u8 = 8;

const fn kind(name: &'static str, operands: Operands, parts: &'static [&'static str]) -> Kind {
    Kind {
        name,
        operands,
        parts,
    }
}

/// All kinds; a record's first byte is an index.
pub const KINDS: [Kind; 9] = [
    kind("Const", Operands::Number, &[]),
    kind("Var", Operands::NumberName, &[]),
    kind("Add", Operands::Nothing, &["first number", "second number"]),
    kind(
        "IfZero",
        Operands::Nothing,
        &["test", "zero part", "other part"],
    ),
    kind("Let", Operands::Nothing, &["number", "body"]),
    kind("Leaf", Operands::Nothing, &["label"]),
    kind("Node", Operands::Nothing, &["left tree", "right tree"]),
    kind("Case", Operands::TreeName, &["leaf part", "node part"]),
    kind("Call", Operands::FunctionOnTree, &[]),
];

impl Record {
    /// The record with this number among records that follow one another, as
    /// the first 63 of a program file do.
    pub fn nth(records: &[u8], number: usize) -> Option<Record> {
        let bytes = records.chunks_exact(RECORD_BYTES).nth(number)?;
        bytes.try_into().ok().map(Record::from_bytes)
    }

    /// What a function gives, by its record.
    pub fn result(self) -> Type {
        match self.kind {
            0 => Type::Number,
            _ => Type::Tree,
        }
    }

    pub fn from_bytes(bytes: [u8; RECORD_BYTES]) -> Record {
        let [kind, a, b0, b1, i0, i1, i2, i3] = bytes;
        Record {
            kind,
            a,
            b: u16::from_le_bytes([b0, b1]),
            i: i32::from_le_bytes([i0, i1, i2, i3]),
        }
    }

    pub fn to_bytes(self) -> [u8; RECORD_BYTES] {
        let ([b0, b1], [i0, i1, i2, i3]) = (self.b.to_le_bytes(), self.i.to_le_bytes());
        [self.kind, self.a, b0, b1, i0, i1, i2, i3]
    }
}

/// A node record as the reference writes it: `Case 0`, `Const -1`, `Call 0 on 1`.
impl fmt::Display for Record {
    fn fmt(&self, f: &mut fmt::Formatter<'_>) -> fmt::Result {
        let Some(kind) = KINDS.get(usize::from(self.kind)) else {
            return write!(f, "kind {}", self.kind);
        };
        f.write_str(kind.name)?;
        match kind.operands {
            Operands::Nothing => Ok(()),
            Operands::Number => write!(f, " {}", self.i),
            Operands::NumberName | Operands::TreeName => write!(f, " {}", self.a),
            Operands::FunctionOnTree => write!(f, " {} on {}", self.b, self.a),
        }
    }
}

/// A function's record as a text has it: `function 1 takes tree 0, number 0
/// gives tree`.
pub fn function_line(function: usize, record: Record) -> String {
    let numbers: String = (0..record.a)
        .map(|name| format!(", number {name}"))
        .collect();
    let result = record.result();
    format!("function {function} takes tree 0{numbers} gives {result}")
}
