//! What `objdump` says of an archive or an object file: its symbols, and the
//! instructions of its routines.

use std::path::Path;
use std::process::{Command, Stdio};

/// What a test says that can't start it.
const NEEDED: &str = "the tests need `objdump`, of the binutils, which come with the C compiler";

#[derive(Clone, Copy, Debug, PartialEq)]
pub enum Machine {
    X86_64,
    Aarch64,
}

/// An object file, alone or in an archive.
#[derive(Debug)]
pub struct Object {
    pub machine: Machine,
    pub symbols: Vec<Symbol>,
    pub instructions: Vec<Instruction>,
}

/// A line of the table of symbols.
#[derive(Debug, PartialEq)]
pub struct Symbol {
    pub name: String,
    /// `*UND*` where it is not defined.
    pub section: String,
    pub address: u64,
    pub is_global: bool,
    pub is_function: bool,
}

impl Symbol {
    pub fn is_defined(&self) -> bool {
        self.section != "*UND*"
    }
}

/// An instruction, and the symbols that the linker puts into it.
#[derive(Debug, PartialEq)]
pub struct Instruction {
    pub section: String,
    pub address: u64,
    pub text: String,
    /// As `objdump` prints them: `memset-0x4`.
    pub relocations: Vec<String>,
}

/// The objects of an archive, or the one of an object file.
pub fn objects(file: &Path) -> Result<Vec<Object>, String> {
    let mut command = Command::new("objdump");
    command.args(["-t", "-d", "-r", "-z", "--no-show-raw-insn"]);
    command.arg(file).env("LC_ALL", "C").stdin(Stdio::null());
    let output = command.output();
    let output = output.map_err(|error| format!("objdump: {error}; {NEEDED}"))?;
    let said = String::from_utf8_lossy(&output.stderr);
    if !output.status.success() || !said.is_empty() {
        return Err(format!("objdump {}: {said}", file.display()));
    }
    let text = String::from_utf8_lossy(&output.stdout);
    let objects = parse(&text)?;
    // An object without code may be one of which the linker makes code.
    match objects.is_empty() || objects.iter().any(|one| one.instructions.is_empty()) {
        true => Err(format!("objdump finds no code in {}", file.display())),
        false => Ok(objects),
    }
}

/// What `objdump` printed.
pub fn parse(text: &str) -> Result<Vec<Object>, String> {
    let (mut objects, mut section) = (Vec::new(), String::new());
    for line in text.lines() {
        let known = if let Some((_, format)) = line.split_once("file format ") {
            begin(format, &mut objects)
        } else if let Some(name) = line.strip_prefix("Disassembly of section ") {
            section = name.trim_end_matches(':').to_owned();
            Some(())
        } else if is_heading(line) {
            Some(())
        } else {
            let object = objects.last_mut();
            object.and_then(|object| add(line, &section, object))
        };
        known.ok_or_else(|| format!("objdump prints what is not known here: {line:?}"))?;
    }
    Ok(objects)
}

/// Begins an object of this format.
fn begin(format: &str, objects: &mut Vec<Object>) -> Option<()> {
    let machine = match format {
        "elf64-x86-64" => Machine::X86_64,
        "elf64-littleaarch64" => Machine::Aarch64,
        _ => return None,
    };
    objects.push(Object {
        machine,
        symbols: Vec::new(),
        instructions: Vec::new(),
    });
    Some(())
}

/// Whether the line says nothing that is needed. A symbol's name, at the start of
/// its code, is in the table of symbols, too.
fn is_heading(line: &str) -> bool {
    let starts = ["In archive ", "SYMBOL TABLE:", "no symbols"];
    line.is_empty() || starts.iter().any(|start| line.starts_with(start)) || line.ends_with(">:")
}

/// Adds a symbol, an instruction or a relocation.
fn add(line: &str, section: &str, object: &mut Object) -> Option<()> {
    if let Some(relocation) = relocation(line) {
        let last = object.instructions.last_mut()?;
        last.relocations.push(relocation);
    } else if let Some((address, text)) = instruction(line) {
        object.instructions.push(Instruction {
            section: section.to_owned(),
            address,
            text,
            relocations: Vec::new(),
        });
    } else {
        object.symbols.push(symbol(line)?);
    }
    Some(())
}

/// Of `1d: R_X86_64_PLT32 memset-0x4`, after blanks, the last word.
fn relocation(line: &str) -> Option<String> {
    let (address, rest) = line.trim_start().split_once(": R_")?;
    hexadecimal(address)?;
    let (_, target) = rest.split_once(char::is_whitespace)?;
    Some(target.trim().to_owned())
}

/// Of `1c:`, a tab and `call 21 <f+0x21>`, after blanks: address and text.
fn instruction(line: &str) -> Option<(u64, String)> {
    let (address, text) = line.trim_start().split_once(":\t")?;
    let text = text.split_whitespace().collect::<Vec<_>>().join(" ");
    Some((hexadecimal(address)?, text))
}

/// Address, seven flags, the section; then, after a tab, size and name.
fn symbol(line: &str) -> Option<Symbol> {
    let (place, rest) = line.split_once('\t')?;
    let (flags, section) = (place.get(17..24)?, place.get(25..)?);
    let (size, name) = rest.split_once(' ')?;
    hexadecimal(size)?;
    // What a weak symbol or an indirect function names is chosen later.
    if flags.contains(['w', 'i', 'I', 'u']) {
        return None;
    }
    let name = name.trim_start();
    Some(Symbol {
        name: name.strip_prefix(".hidden ").unwrap_or(name).to_owned(),
        section: section.to_owned(),
        address: hexadecimal(place.get(..16)?)?,
        is_global: !flags.starts_with('l') && !flags.contains('d'),
        is_function: flags.ends_with('F'),
    })
}

/// A number as `objdump` prints addresses.
pub fn hexadecimal(digits: &str) -> Option<u64> {
    u64::from_str_radix(digits, 16).ok()
}
