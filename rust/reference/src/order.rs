//! The order checker: pass one, which is names, types and words, and pass
//! two, which is the order of the trees.

use crate::program::{read_file, Program};
use crate::tree::Refusal;

pub mod known;
pub mod pass_one;
pub mod splits;
pub mod walk;

#[cfg(test)]
mod tests;

/// "The word count is that of the value stack above the frame's base; 16 is
/// the most."
pub const WORD_LIMIT: usize = 16;

/// "The pending trees are a list of at most 16 numbers"
pub const PENDING_LIMIT: usize = 16;

/// What is wrong at a record, finer than the numbers of the table.
#[derive(Clone, Copy, Debug, PartialEq, Eq, PartialOrd, Ord)]
pub enum Fault {
    /// 9: a Var's number.
    VarNotBound,
    /// 9: a Case's tree.
    CaseNotBound,
    /// 9: a Call's tree.
    CallNotBound,
    /// 8: a number stands where a tree is expected.
    TreeExpected,
    /// 8: a tree stands where a number is expected.
    NumberExpected,
    /// 10: 16 words stand on entering a Const.
    WordsAtConst,
    /// 10: 16 words stand on entering a Var.
    WordsAtVar,
    /// 10: 16 words stand on entering a Case.
    WordsAtCase,
    /// 10: 16 words stand on entering a number-valued Call with no arguments.
    WordsAtCall,
    /// 11: trees are pending, and a Case's is not the head.
    CaseNotHead,
    /// 11: trees are pending, and a Call's is not the head.
    CallNotHead,
    /// 11: a Case with no tree pending.
    CaseWithNone,
    /// 11: a Call with no tree pending.
    CallWithNone,
    /// 11: the branches of a Case end with unequal lists.
    UnequalAtCase,
    /// 11: the branches of an IfZero end with unequal lists.
    UnequalAtIfZero,
    /// 11: a function ends with trees pending.
    TreesLeft,
    /// 12: a Case with 16 pending.
    PendingFull,
}

impl Fault {
    pub const ALL: [Fault; 17] = [
        Fault::VarNotBound,
        Fault::CaseNotBound,
        Fault::CallNotBound,
        Fault::TreeExpected,
        Fault::NumberExpected,
        Fault::WordsAtConst,
        Fault::WordsAtVar,
        Fault::WordsAtCase,
        Fault::WordsAtCall,
        Fault::CaseNotHead,
        Fault::CallNotHead,
        Fault::CaseWithNone,
        Fault::CallWithNone,
        Fault::UnequalAtCase,
        Fault::UnequalAtIfZero,
        Fault::TreesLeft,
        Fault::PendingFull,
    ];

    /// "9 name not bound, 8 type, 10 words"; "11 not the head, lists unequal
    /// (at the Case or IfZero), trees left (at the function's first node); 12
    /// Case with 16 pending".
    pub fn number(self) -> u8 {
        match self {
            Fault::TreeExpected | Fault::NumberExpected => 8,
            Fault::VarNotBound | Fault::CaseNotBound | Fault::CallNotBound => 9,
            Fault::WordsAtConst | Fault::WordsAtVar | Fault::WordsAtCase | Fault::WordsAtCall => 10,
            Fault::CaseNotHead
            | Fault::CallNotHead
            | Fault::CaseWithNone
            | Fault::CallWithNone
            | Fault::UnequalAtCase
            | Fault::UnequalAtIfZero
            | Fault::TreesLeft => 11,
            Fault::PendingFull => 12,
        }
    }
}

/// A fault and the record where it is reported.
#[derive(Clone, Copy, Debug, PartialEq, Eq)]
pub struct Found {
    pub fault: Fault,
    pub position: usize,
}

impl Found {
    pub fn refusal(self) -> Refusal {
        Refusal {
            number: self.fault.number(),
            position: self.position,
        }
    }
}

/// Both passes over a program: pass one is finished for all functions before
/// pass two begins.
pub fn check_program(program: &Program) -> Result<(), Found> {
    pass_one::check(program)?;
    walk::check(program)
}

/// Whether the two ways to perform pass two agree on a program that passes
/// pass one. The walk comes to its end exactly where there is a derivation
/// with lists of at most 16 names. It reports 11 only where there is none at
/// all, and 12 where only the limit is in the way.
pub fn ways_agree(program: &Program) -> bool {
    let walked = walk::check(program).map_err(|found| found.fault.number());
    let typable = splits::typable(program, None);
    let within_the_limit = splits::typable(program, Some(PENDING_LIMIT));
    match walked {
        Ok(()) => typable && within_the_limit,
        Err(12) => !within_the_limit,
        Err(_) => !typable && !within_the_limit,
    }
}

/// Rows header to prefix form over flat records, then both passes.
pub fn check_records(records: &[u8]) -> Result<(), Refusal> {
    let program = Program::from_records(records)?;
    check_program(&program).map_err(Found::refusal)
}

/// All rows over a program file, then both passes.
pub fn check(file: &[u8]) -> Result<(), Refusal> {
    check_records(&read_file(file)?)
}
