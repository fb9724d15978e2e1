//! Texts as `objdump` prints them: what is taken from them, and what is not known.

use super::faults::faults_of;
use super::objdump::parse;

/// Of another machine than most: `h` calls `f`, which jumps to `h`, to the C library,
/// or inside itself.
const AARCH64: &str = "In archive x.a:

x.o:     file format elf64-littleaarch64

SYMBOL TABLE:
0000000000000000 l    d  .text\t0000000000000000 .text
0000000000000000 l     F .text\t0000000000000010 h
0000000000000010 g     F .text\t0000000000000010 .hidden f
0000000000000000         *UND*\t0000000000000000 memset


Disassembly of section .text:

0000000000000000 <h>:
   0:\tstp\tx29, x30, [sp, #-16]!
   4:\tbl\t10 <f>
   8:\tb.ne\t4 <h+0x4>  // b.any
   c:\tret

0000000000000010 <f>:
  10:\tcbz\tw0, 18 <f+0x8>
  14:\tb\t0 <h>
\t\t\t14: R_AARCH64_JUMP26\t.text
  18:\ttbz\tw0, #2, 14 <f+0x4>
  1c:\tb\t0 <memset>
\t\t\t1c: R_AARCH64_JUMP26\tmemset
";

/// The faults in what is printed.
fn faults(text: &str) -> Vec<String> {
    faults_of(&parse(text).unwrap())
}

#[test]
fn recursive_routines_are_found_for_aarch64() {
    assert_eq!(faults(AARCH64), ["recursive: f -> h -> f"]);
    for (old, new, expected) in [
        // To the C library, or past the routine's start by four.
        (
            "bl\t10 <f>",
            "bl\t0 <memset>\n\t\t\t4: R_AARCH64_CALL26\tmemset",
            None,
        ),
        (
            "bl\t10 <f>",
            "bl\t14 <f+0x4>",
            Some("recursive: f -> h -> f"),
        ),
        ("JUMP26\t.text", "JUMP26\t.text+0x14", None),
        (
            "JUMP26\t.text",
            "JUMP26\t.text+0x10",
            Some("recursive: f -> f"),
        ),
        ("JUMP26\tmemset", "JUMP26\tf", Some("recursive: f -> f")),
        (
            "JUMP26\tmemset",
            "JUMP26\tqsort",
            Some("not in the library: qsort"),
        ),
    ] {
        let found = faults(&AARCH64.replace(old, new));
        match expected {
            Some(fault) => assert!(found.iter().any(|one| one == fault), "{new}: {found:?}"),
            None => assert_eq!(found, [""; 0], "{new}"),
        }
    }
}

/// Branches to nowhere known, a name of two routines, code of no routine.
#[test]
fn what_cannot_be_told_is_told() {
    for (old, new) in [
        ("ret\n", "blr\tx8\n"),
        ("ret\n", "br\tx8\n"),
        ("ret\n", "svc\t#0x0\n"),
        ("ret\n", ".inst\t0x00000000 ; undefined\n"),
        ("bl\t10 <f>", "bl\tthere"),
        ("JUMP26\tmemset", "JUMP26\tmemset+0xy"),
        (
            "*UND*\t0000000000000000 memset",
            ".data\t0000000000000000 memset",
        ),
        (
            "*UND*\t0000000000000000 memset",
            ".data\t0000000000000000 .text",
        ),
        ("l     F .text", "l     O .text"),
        ("0000         *UND*", "0000 g     F .data"),
    ] {
        let text = AARCH64.replace(old, new);
        assert_ne!(text, AARCH64);
        let found = faults(&text);
        let is_told = |fault: &String| fault.contains("can't be told") || fault.contains("in no");
        assert!(found.iter().any(is_told), "{new}: {found:?}");
    }
}

#[test]
fn what_is_not_known_is_refused() {
    for (old, new) in [
        ("littleaarch64", "bigaarch64"),
        ("SYMBOL TABLE:", "DYNAMIC THINGS"),
        ("   c:\tret\n", "\t...\n"),
        ("*UND*\t", "*UND* "),
        ("   c:\tret", "   g:\tret"),
        ("g     F .text", " w    F .text"),
        ("g     F .text", "g   i   .text"),
    ] {
        let text = AARCH64.replace(old, new);
        assert_ne!(text, AARCH64);
        let said = parse(&text).unwrap_err();
        assert!(
            said.starts_with("objdump prints what is not known here"),
            "{said}"
        );
    }
}
