//! The code of generated programs: its length, and where its addresses lead.

use super::*;
use crate::generate::{evaluated, ordered};
use crate::machine::opcode;
use crate::program::{Expr, Function};
use crate::random::Random;

/// The instructions that a record adds to the code, by the table.
fn lines(expr: &Expr) -> usize {
    match expr {
        Expr::Const(_) | Expr::Var(_) | Expr::Add(..) | Expr::Let(..) => 1,
        Expr::Node(..) | Expr::Call(..) => 1,
        Expr::IfZero(..) | Expr::Leaf(_) => 2,
        Expr::Case(..) => 4,
    }
}

fn length(function: &Function) -> usize {
    function.body.prefix().into_iter().map(lines).sum::<usize>() + 1
}

/// Where each function begins, and the end of the code.
fn entries(program: &Program) -> Vec<usize> {
    let mut entries = vec![0];
    for function in &program.functions {
        entries.push(entries[entries.len() - 1] + length(function));
    }
    entries
}

#[test]
fn codes_of_generated_programs() {
    let mut random = Random::new(201);
    let mut seen = [0; 14];
    for _ in 0..400 {
        let program = ordered::any_program(&mut random);
        let code = translate_program(&program);
        let entries = entries(&program);
        assert_eq!(code.len(), entries[program.functions.len()]);
        assert!(code.len() <= 4 * program.nodes() + program.functions.len());
        for (function, bounds) in program.functions.iter().zip(entries.windows(2)) {
            let ret = code[bounds[1] - 1];
            assert_eq!((ret.opcode, ret.byte1 == 0), (13, function.tree_valued));
            for address in bounds[0]..bounds[1] {
                seen[usize::from(code[address].opcode)] += 1;
                leads_well(&program, &entries, address, bounds[1], code[address]);
            }
        }
        assert_eq!(translate(&lay_out(&program.records())), Ok(assemble(&code)));
    }
    assert!(seen.iter().all(|&count| count > 100), "{seen:?}");
}

/// Jumps go forward and stay in their function, calls go to an entry with as
/// many arguments as it has parameters, and words are below 16.
fn leads_well(
    program: &Program,
    entries: &[usize],
    address: usize,
    end: usize,
    instruction: Instruction,
) {
    let operand = usize::from(instruction.operand);
    match instruction.opcode {
        opcode::IFNOT | opcode::JUMP | opcode::READ_TAG => {
            assert!(address < operand && operand < end);
        }
        opcode::CALL => {
            let b = entries.binary_search(&operand).expect("an entry");
            assert_eq!(instruction.byte1, program.functions[b].parameters);
        }
        opcode::GET => assert!(operand < 16),
        _ => assert_eq!(operand, 0),
    }
    let fields = [
        (opcode::CALL, opcode::RETURN, instruction.byte1 == 0),
        (opcode::PUSH, opcode::PUSH, instruction.number == 0),
    ];
    for (one, other, zero) in fields {
        assert!(zero || [one, other].contains(&instruction.opcode));
    }
}

/// Vars and gets stand in the same order. A name's word is never below the
/// name, and above it where a temporary stands below.
#[test]
fn words_of_names_in_generated_programs() {
    let mut random = Random::new(202);
    let mut seen = [0; 5];
    for _ in 0..1_000 {
        let program = evaluated::any_program(&mut random);
        let code = translate_program(&program);
        let words = code.iter().filter(|one| one.opcode == opcode::GET);
        let mut words = words.map(|one| usize::from(one.operand));
        for function in &program.functions {
            for expr in function.body.prefix() {
                if let Expr::Var(a) = expr {
                    let word = words.next().expect("a get for each Var");
                    let above = word - usize::from(*a);
                    seen[above.min(4)] += 1;
                }
            }
        }
        assert_eq!(words.next(), None);
    }
    assert!(seen.iter().all(|&count| count >= 20), "{seen:?}");
}
