//! No routine of the view library can reach itself.

use super::branches::{branch, Branch};
use super::calls::graph;
use super::faults::faults_of;
use super::*;

fn faults(file: &Path) -> Vec<String> {
    faults_of(&disassembled(file))
}

#[test]
fn no_routine_of_the_view_library_can_reach_itself() {
    let faults = faults(&archives::view());
    assert!(faults.is_empty(), "{}", faults.join("\n"));
}

/// Of the whole library the checker's passes, the decoder, the translator and what
/// finds the trees that a program names are recursive.
#[test]
fn the_recursive_routines_of_the_whole_library_are_found() {
    let faults = faults(&archives::whole());
    let words = faults.iter().map(|fault| fault.split(' '));
    let ways = words.filter(|words| words.clone().next() == Some("recursive:"));
    let recursive: Vec<&str> = ways.flatten().collect();
    for name in [
        "pass_one::Walk::enter",
        "pass_two::Walk::order_at",
        "decode::Walk::decode_at",
        "translate::Emission::emit",
        "named_trees::offset_of",
    ] {
        assert!(recursive.contains(&name), "{name}: {faults:#?}");
    }
}

/// A C file's name, its text, and the faults found in it.
type Case = (&'static str, &'static str, &'static [&'static str]);

/// Each has a routine that can reach itself.
const RECURSIVE: [Case; 4] = [
    (
        "itself",
        "int f(int x); int f(int x) { return x < 2 ? 1 : 3 * f(x - 1) + f(x - 2); }",
        &["recursive: f -> f"],
    ),
    (
        "each_other",
        "int f(int x); int g(int x); int f(int x) { return x < 2 ? 1 : 3 * g(x - 1); }
        int g(int x) { return x < 3 ? 2 : 5 * f(x - 1); }
        int h(int x); int h(int x) { return f(x); }",
        &["recursive: f -> g -> f"],
    ),
    (
        "three_in_a_row",
        "int a(int x); int b(int x); int c(int x); int a(int x) { return x < 1 ? 0 : 2 * b(x); }
        int b(int x) { return 3 * c(x - 1); } int c(int x) { return 4 + a(x - 1); }",
        &["recursive: a -> b -> c -> a"],
    ),
    (
        "a_local_one",
        "static int s(int x) { return x < 2 ? 1 : 3 * s(x - 1) + s(x - 2); }
        int f(int x); int f(int x) { return s(x) + 1; }",
        &["recursive: s -> s"],
    ),
];

/// No routine can reach itself, though they call each other, have loops, and call
/// the C library.
const NOT_RECURSIVE: &str = "#include <string.h>
    int f(int x); int g(int x); int h(int x); int none(int x);
    int h(int x) { int s = 0; while (x > 0) { s += none(x); x -= 2; } return s; }
    int g(int x) { return h(x) + h(x + 1); }
    int f(int x) { char b[900]; memset(b, x, sizeof b); return g(x) + h(b[x & 511]); }
    int none(int x) { do { x = x * 3 / 2 + 1; } while (x % 7 != 0); return x; }";

/// The object of a C file, with these settings of the compiler.
fn compiled(name: &str, text: &str, settings: &[&str]) -> PathBuf {
    let source = source(name, &format!("{text}\n"));
    let object = made(&format!("{name}.o"));
    let mut command = compiler("cc", "c99");
    command.args(["-fno-inline", "-c"]).args(settings);
    succeed(command.arg(&source).arg("-o").arg(&object));
    object
}

/// Settings under which calls go by relocation to a symbol or a section, or stand
/// as they are.
const SETTINGS: [(&str, &[&str]); 4] = [
    ("plain", &["-O1"]),
    ("unoptimised", &["-O0"]),
    ("sections", &["-O1", "-ffunction-sections"]),
    ("position", &["-O1", "-fPIC", "-ffunction-sections"]),
];

#[test]
fn recursive_routines_are_found_in_c() {
    for (setting, settings) in SETTINGS {
        for (name, text, expected) in RECURSIVE {
            let object = compiled(&format!("{name}-{setting}"), text, settings);
            assert_eq!(faults(&object), expected, "{name}, {setting}");
        }
    }
}

#[test]
fn routines_that_are_not_recursive_pass() {
    for (setting, settings) in SETTINGS {
        let object = compiled(&format!("none-{setting}"), NOT_RECURSIVE, settings);
        assert_eq!(faults(&object), [""; 0], "{setting}");
        assert_eq!(graph(&disassembled(&object)).names.len(), 4);
    }
}

/// A last call becomes a jump.
#[test]
fn jumps_to_other_routines_count() {
    let text = "int f(int x); int g(int x);
        int f(int x) { return x < 9 ? x : g(x - 1); } int g(int x) { return f(x / 2); }";
    for sections in ["-fno-function-sections", "-ffunction-sections"] {
        let settings = ["-O2", sections];
        let object = compiled(&format!("jumps{sections}"), text, &settings);
        assert_eq!(faults(&object), ["recursive: f -> g -> f"], "{sections}");
        let objects = disassembled(&object);
        let is_call = |text: &str| matches!(branch(objects[0].machine, text), Branch::Call(_));
        let mut instructions = objects[0].instructions.iter();
        assert!(!instructions.any(|one| is_call(&one.text)), "{sections}");
    }
}

/// A call through a pointer, and as a jump; and a routine that is not there.
#[test]
fn what_cannot_be_told_is_a_fault() {
    let call = "int f(int (*g)(int), int x); int f(int (*g)(int), int x) { return 2 * g(x); }";
    let jump = "int f(int (*g)(int), int x); int f(int (*g)(int), int x) { return g(x); }";
    for (name, text) in [("pointer_call", call), ("pointer_jump", jump)] {
        let object = compiled(name, text, &["-O2"]);
        let faults = faults(&object);
        assert_eq!(faults.len(), 1, "{name}: {faults:?}");
        assert!(faults[0].starts_with("f: it can't be told"), "{faults:?}");
    }
    let text = "int g(int x); int f(int x); int f(int x) { return 2 * g(x); }";
    let object = compiled("outside", text, &["-O1"]);
    assert_eq!(faults(&object), ["not in the library: g"]);
}
