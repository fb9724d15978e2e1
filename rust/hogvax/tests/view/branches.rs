//! Where an instruction may go on, other than to the next.

use super::objdump::{hexadecimal, Machine};

#[derive(Debug, PartialEq)]
pub enum Branch {
    /// To the next instruction, or back to the caller.
    None,
    /// To this address of the same section, unless the linker puts in another.
    Jump(u64),
    Call(u64),
    /// To an address that the instruction does not name.
    Indirect,
    /// An instruction of which this can't be said here.
    Unknown,
}

/// The branch of an instruction's text.
pub fn branch(machine: Machine, text: &str) -> Branch {
    let text = text.split(" //").next().unwrap_or(text);
    match machine {
        Machine::X86_64 => x86_64(text),
        Machine::Aarch64 => aarch64(text),
    }
}

/// Words that `objdump` prints before a name of x86-64.
const PREFIXES: [&str; 15] = [
    "bnd", "notrack", "rep", "repz", "repnz", "lock", "data16", "addr32", "cs", "ds", "es", "ss",
    "fs", "gs", "rex.W",
];

/// Other ways on, of x86-64: to the system, to another segment, or no code.
const OTHERS_X86_64: [&str; 12] = [
    "(bad)", ".byte", "syscall", "sysenter", "sysret", "sysexit", "int", "iret", "lcall", "ljmp",
    "lret", "xbegin",
];

fn x86_64(text: &str) -> Branch {
    let mut words = text.split(' ').skip_while(|word| PREFIXES.contains(word));
    let name = words.next().unwrap_or("");
    let operand = words.next().unwrap_or("");
    // `iretq` and `sysretl` are the same with a width.
    let bare = name.strip_suffix(['q', 'l']).unwrap_or(name);
    if OTHERS_X86_64.contains(&name) || OTHERS_X86_64.contains(&bare) {
        Branch::Unknown
    } else if name == "call" || name == "callq" {
        target(operand, Branch::Call)
    } else if name.starts_with('j') || name.starts_with("loop") {
        target(operand, Branch::Jump)
    } else {
        Branch::None
    }
}

/// Other ways on, of aarch64.
const OTHERS_AARCH64: [&str; 9] = [
    ".inst", ".word", ".byte", ".short", "udf", "svc", "hvc", "smc", "eret",
];

fn aarch64(text: &str) -> Branch {
    let (name, operands) = text.split_once(' ').unwrap_or((text, ""));
    let last = operands.rsplit(", ").next().unwrap_or("");
    let operand = last.split(' ').next().unwrap_or("");
    let is_indirect = name.starts_with("blr") || name.starts_with("br") && name != "brk";
    if OTHERS_AARCH64.contains(&name) {
        Branch::Unknown
    } else if is_indirect {
        Branch::Indirect
    } else if name == "bl" {
        target(operand, Branch::Call)
    } else if ["b", "cbz", "cbnz", "tbz", "tbnz"].contains(&name)
        || name.starts_with("b.")
        || name.starts_with("bc.")
    {
        target(operand, Branch::Jump)
    } else {
        Branch::None
    }
}

/// A branch to what an operand names.
fn target(operand: &str, to: fn(u64) -> Branch) -> Branch {
    match hexadecimal(operand) {
        Some(address) => to(address),
        None if operand.starts_with('*') => Branch::Indirect,
        None => Branch::Unknown,
    }
}

#[test]
fn branches_of_x86_64_are_told() {
    let told = |text| branch(Machine::X86_64, text);
    for (text, expected) in [
        ("call 21 <f+0x21>", Branch::Call(0x21)),
        ("callq 0 <f>", Branch::Call(0)),
        ("jmp 8a <f+0x8a>", Branch::Jump(0x8a)),
        ("jmpq 8a <f+0x8a>", Branch::Jump(0x8a)),
        ("bnd jmp 4 <f+0x4>", Branch::Jump(4)),
        ("jne,pn 4 <f+0x4>", Branch::Jump(4)),
        ("jrcxz 4 <f+0x4>", Branch::Jump(4)),
        ("loopne 4 <f+0x4>", Branch::Jump(4)),
        ("call *%rax", Branch::Indirect),
        ("call *0x0(%rip) # 6 <f+0x6>", Branch::Indirect),
        ("notrack jmp *%rax", Branch::Indirect),
        ("jmp *0x0(,%rdi,8)", Branch::Indirect),
        ("lea 0x0(%rip),%rdi # 7 <f+0x7>", Branch::None),
        ("repz ret", Branch::None),
        ("retq", Branch::None),
        ("ud2", Branch::None),
        ("data16 cs nopw 0x0(%rax,%rax,1)", Branch::None),
        ("syscall", Branch::Unknown),
        ("iretq", Branch::Unknown),
        ("(bad)", Branch::Unknown),
        ("jmp somewhere", Branch::Unknown),
    ] {
        assert_eq!(told(text), expected, "{text}");
    }
}

#[test]
fn branches_of_aarch64_are_told() {
    let told = |text| branch(Machine::Aarch64, text);
    for (text, expected) in [
        ("bl 1c <f+0x1c>", Branch::Call(0x1c)),
        ("b 0 <f>", Branch::Jump(0)),
        ("b.ne 14 <f+0x14> // b.any", Branch::Jump(0x14)),
        ("bc.eq 14 <f+0x14>", Branch::Jump(0x14)),
        ("cbz w0, c <f+0xc>", Branch::Jump(0xc)),
        ("tbnz w0, #3, 1c <f+0x1c>", Branch::Jump(0x1c)),
        ("blr x8", Branch::Indirect),
        ("br x16", Branch::Indirect),
        ("braa x16, x17", Branch::Indirect),
        ("brk #0x1", Branch::None),
        ("bic w0, w0, w1", Branch::None),
        ("bti c", Branch::None),
        ("ret", Branch::None),
        ("svc #0x0", Branch::Unknown),
        (".inst 0x00000000 ; undefined", Branch::Unknown),
        ("b somewhere", Branch::Unknown),
    ] {
        assert_eq!(told(text), expected, "{text}");
    }
}
