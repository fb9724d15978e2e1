//! The translator: a program's code by the templates of the table, and its
//! listing.

use crate::machine::{assemble, Instruction};
use crate::order::{check_program, Found};
use crate::program::{read_file, Program, BUFFER_TOO_SHORT};
use crate::tree::{refuse, Refusal};

pub mod known;
mod lines;
mod templates;

#[cfg(test)]
mod tests;

/// The code of a program file as bytes, or the first refusal: "the translator
/// needs both passes".
pub fn translate(file: &[u8]) -> Result<Vec<u8>, Refusal> {
    Ok(assemble(&instructions(file)?))
}

/// As `translate`, into the start of a lent buffer; gives the number of bytes
/// written. "the translator needs both passes, then tests 13"; "A refusal
/// leaves every output buffer untouched".
pub fn translate_into(file: &[u8], code: &mut [u8]) -> Result<usize, Refusal> {
    let bytes = translate(file)?;
    match code.get_mut(..bytes.len()) {
        None => refuse(BUFFER_TOO_SHORT, 0),
        Some(start) => {
            start.copy_from_slice(&bytes);
            Ok(bytes.len())
        }
    }
}

/// The code of a program that passes both passes: "Functions follow in
/// order". Names stand for addresses at first.
pub fn translate_program(program: &Program) -> Vec<Instruction> {
    lines::resolved(&templates::lines(program))
}

/// What "the listing program" prints for this input: "a line each, address,
/// opcode, byte 1, operand, number, after a heading with the count (a refused
/// file gives one line: refused, number, position)".
pub fn listing(file: &[u8]) -> String {
    match instructions(file) {
        Err(Refusal { number, position }) => format!("refused {number} {position}\n"),
        Ok(instructions) => {
            let heading = format!("code {}\n", instructions.len());
            let lines = instructions.iter().enumerate();
            let lines = lines.map(|(address, one)| listed(address, *one));
            heading + &lines.collect::<String>()
        }
    }
}

/// "instruction numbers are two's complement."
fn listed(address: usize, instruction: Instruction) -> String {
    let Instruction {
        opcode,
        byte1,
        operand,
        number,
    } = instruction;
    format!("{address} {opcode} {byte1} {operand} {}\n", number as i32)
}

/// All rows over a program file, both passes, then the code.
fn instructions(file: &[u8]) -> Result<Vec<Instruction>, Refusal> {
    let program = Program::from_records(&read_file(file)?)?;
    check_program(&program).map_err(Found::refusal)?;
    Ok(translate_program(&program))
}
