//! The header's declarations beside those of the Rust wrapper.

use std::fmt::Write;

use super::*;

const FFI: &str = include_str!("../../src/ffi.rs");

/// A declaration: the name of the call, its parameters, each a name with its
/// type, and the type of its result.
#[derive(Debug, PartialEq)]
struct Declaration {
    name: String,
    parameters: Vec<(String, String)>,
    result: String,
}

/// Each run of spaces and line ends becomes one space.
fn on_one_line(text: &str) -> String {
    text.split_whitespace().collect::<Vec<_>>().join(" ")
}

/// What C calls a type of the wrapper.
fn c_type(rust: &str) -> &'static str {
    match rust {
        "*const u8" => "const uint8_t *",
        "*mut u8" => "uint8_t *",
        "*mut u32" => "uint32_t *",
        "*mut u64" => "uint64_t *",
        "usize" => "size_t",
        "u64" => "uint64_t",
        "u32" => "uint32_t",
        other => panic!("a type that is not known: {other}"),
    }
}

/// A declaration of the wrapper: `hogvax_x(a: A, b: B) -> C`.
fn of_the_wrapper(text: &str) -> Declaration {
    let (name, rest) = text.split_once('(').unwrap();
    let (parameters, result) = rest.split_once(") -> ").unwrap();
    let parameters = parameters.split(',').map(str::trim);
    let parameters = parameters.filter(|one| !one.is_empty()).map(|one| {
        let (name, rust) = one.split_once(": ").unwrap();
        (name.to_owned(), c_type(rust).to_owned())
    });
    Declaration {
        name: name.to_owned(),
        parameters: parameters.collect(),
        result: c_type(result).to_owned(),
    }
}

fn wrapper() -> Vec<Declaration> {
    let (_, block) = FFI.split_once("\nextern \"C\" {\n").unwrap();
    let (block, _) = block.split_once("\n}\n").unwrap();
    let declarations = block.split(';').map(on_one_line);
    let declarations = declarations.filter(|text| !text.is_empty());
    let name = |text: String| of_the_wrapper(text.strip_prefix("fn ").unwrap());
    declarations.map(name).collect()
}

/// A declaration of the header: `C hogvax_x(A a, B b)`.
fn of_the_header(text: &str) -> Declaration {
    let (start, parameters) = text.split_once('(').unwrap();
    let (result, name) = start.rsplit_once(' ').unwrap();
    let parameters = parameters.strip_suffix(')').unwrap().split(", ");
    let parameters = parameters.map(|one| {
        let cut = one.rfind([' ', '*']).unwrap() + 1;
        let (before, name) = one.split_at(cut);
        (name.to_owned(), before.trim_end().to_owned())
    });
    Declaration {
        name: name.to_owned(),
        parameters: parameters.collect(),
        result: result.to_owned(),
    }
}

/// The header without comments and lines of the preprocessor.
fn header_code() -> String {
    let pieces = HEADER
        .split("/*")
        .map(|piece| match piece.split_once("*/") {
            Some((_, code)) => code,
            None => piece,
        });
    let code: String = pieces.collect();
    let lines = code.lines().filter(|line| !line.starts_with('#'));
    lines.collect::<Vec<_>>().join("\n")
}

fn header() -> Vec<Declaration> {
    let code = header_code();
    let statements = code.split(';').map(on_one_line);
    let declarations = statements.filter(|text| text.contains("hogvax_") && text.ends_with(')'));
    let without_brace = |text: String| text.replace("extern \"C\" { ", "");
    declarations
        .map(|text| of_the_header(&without_brace(text)))
        .collect()
}

/// The same calls in the same order, with the same names and types.
#[test]
fn the_header_declares_what_the_wrapper_calls() {
    let (header, wrapper) = (header(), wrapper());
    assert_eq!(wrapper.len(), 10);
    assert_eq!(header, wrapper);
}

/// The compiler takes each call for what the wrapper says, and the library has
/// it.
#[test]
fn every_call_links_with_its_type() {
    let mut text = String::from("#include \"hogvax.h\"\n");
    let mut count = 0;
    for Declaration {
        name,
        parameters,
        result,
    } in wrapper()
    {
        let types: Vec<String> = parameters.into_iter().map(|(_, c)| c).collect();
        let types = types.join(", ");
        writeln!(text, "{result} (*volatile call_{count})({types}) = {name};").unwrap();
        count += 1;
    }
    text += "int main(void) { return ";
    for call in 0..count {
        write!(text, "!call_{call} || ").unwrap();
    }
    text += "0; }\n";
    succeed(&mut Command::new(build_text(&text, "calls")));
}

/// In every C since 1999, and twice in one file.
#[test]
fn the_header_is_c() {
    let source = made("included.c");
    let text = "#include \"hogvax.h\"\n#include \"hogvax.h\"\nint unused;\n";
    fs::write(&source, text).unwrap();
    for standard in ["c99", "c11", "gnu99", "gnu11"] {
        let mut command = compiler("cc", standard);
        succeed(command.arg("-fsyntax-only").arg(&source));
    }
}

/// In C++ its calls are those of C.
#[test]
fn the_header_is_cpp() {
    let source = made("included.cpp");
    let call = "hogvax_tree_bytes(bytes, sizeof bytes)";
    let text = format!(
        "#include \"hogvax.h\"\n\
        int main() {{ uint8_t bytes[5] = {{1}}; return {call} == 5 ? 0 : 1; }}\n"
    );
    fs::write(&source, text).unwrap();
    let program = made("cpp");
    let mut command = compiler("c++", "c++11");
    command.arg(&source).arg(env!("HOGVAX_ARCHIVE"));
    succeed(command.arg("-o").arg(&program));
    succeed(&mut Command::new(program));
}
