//! Programs, their records, and program files.

use crate::tree::Refusal;

pub mod expr;
pub mod file;
pub mod record;
pub mod rows;

#[cfg(test)]
mod tests;

pub use expr::Expr;
pub use file::{
    lay_out, lay_out_runs, mend_checks, read_file, read_file_into, write_file, write_file_into,
    BLOCK_BYTES, BLOCK_LIMIT, BLOCK_RECORDS,
};
pub use record::{kind, Record, RECORD_BYTES};
pub use rows::part_count;

/// "functions F (1 to 32)"
pub const FUNCTION_LIMIT: usize = 32;

/// "nodes N (1 to 1,024)"
pub const NODE_LIMIT: usize = 1024;

/// "number parameters (0 to 4; function 0 has none)"
pub const PARAMETER_LIMIT: usize = 4;

/// "1 length is not 1 to 17 whole blocks"
pub const BAD_LENGTH: u8 = 1;

/// "2 check"
pub const BAD_CHECK: u8 = 2;

/// "3 other block fields or unused records"
pub const BAD_BLOCK: u8 = 3;

/// "4 a field, or the record count"
pub const BAD_HEADER: u8 = 4;

/// "5 a field; a wrong sum of counts at the last one"
pub const BAD_FUNCTION: u8 = 5;

/// "6 kind above 8, unused field not zero, b not below F"
pub const BAD_NODE: u8 = 6;

/// "7 a function's records aren't exactly one expression"
pub const NOT_PREFIX_FORM: u8 = 7;

/// "13 code, file or work buffer too short"
pub const BUFFER_TOO_SHORT: u8 = 13;

/// A function: "result (0 number, 1 tree)", its number parameters, its body.
/// "Each function has besides one tree parameter."
#[derive(Clone, Debug, PartialEq, Eq)]
pub struct Function {
    pub tree_valued: bool,
    pub parameters: u8,
    pub body: Expr,
}

/// A program. A right one has edition 1.
#[derive(Clone, Debug, PartialEq, Eq)]
pub struct Program {
    pub edition: u8,
    pub functions: Vec<Function>,
}

impl Program {
    /// A program of edition 1.
    pub fn new(functions: Vec<Function>) -> Program {
        Program {
            edition: 1,
            functions,
        }
    }

    /// The records as bytes: "Record 0 is the header", "Next, F function
    /// records", "Then the nodes, function by function, in prefix order." At
    /// most 255 functions and 65,535 nodes fit in the fields.
    pub fn records(&self) -> Vec<u8> {
        let mut functions = Vec::new();
        let mut nodes = Vec::new();
        for function in &self.functions {
            let body = function.body.prefix();
            functions.push(Record {
                kind: u8::from(function.tree_valued),
                a: function.parameters,
                b: body.len().try_into().expect("at most 65,535 nodes"),
                i: 0,
            });
            nodes.extend(body.iter().map(|expr| expr.record()));
        }
        let header = Record {
            kind: self.edition,
            a: functions.len().try_into().expect("at most 255 functions"),
            b: nodes.len().try_into().expect("at most 65,535 nodes"),
            i: 0,
        };
        Record::bytes(&[&[header], &functions[..], &nodes[..]].concat())
    }

    /// The number of nodes.
    pub fn nodes(&self) -> usize {
        self.functions
            .iter()
            .map(|function| function.body.prefix().len())
            .sum()
    }

    /// The program with these records, or the first refusal of the rows
    /// header, functions, nodes and prefix form.
    pub fn from_records(records: &[u8]) -> Result<Program, Refusal> {
        rows::read(records)
    }
}
