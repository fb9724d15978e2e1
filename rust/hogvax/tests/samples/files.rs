//! The files of the sample programs, their listings and what is said of them.

use super::*;

#[test]
fn there_are_no_other_programs() {
    let both = |(name, _)| [format!("{name}.program"), format!("{name}.records")];
    let expected: Vec<String> = programs().into_iter().flat_map(both).collect();
    assert_eq!(files("programs"), expected);
}

#[test]
fn records_and_files_are_the_programs() {
    for (name, program) in programs() {
        let records = bytes(&format!("programs/{name}.records"));
        let file = bytes(&format!("programs/{name}.program"));
        assert_eq!(records, program.records(), "{name}");
        assert_eq!(hogvax::pack(&records).as_ref(), Ok(&file), "{name}");
        assert_eq!(hogvax::unpack(&file).as_ref(), Ok(&records), "{name}");
    }
}

#[test]
fn the_order_checker_says_what_the_readme_says() {
    for (name, program) in programs() {
        let records = bytes(&format!("programs/{name}.records"));
        let file = bytes(&format!("programs/{name}.program"));
        assert_eq!(hogvax::check_records(&records), verdict(name), "{name}");
        assert_eq!(hogvax::check(&file), verdict(name), "{name}");
        let passes = reference::check_program(&program).is_ok();
        assert_eq!(passes, verdict(name).is_ok(), "{name}");
    }
}

/// The start of a function's line in the README: its number, result, number
/// parameters and records.
fn line(number: usize, function: &Function) -> String {
    let result = if function.tree_valued {
        "tree"
    } else {
        "number"
    };
    let Function {
        parameters, body, ..
    } = function;
    format!("| {number} | {result} | {parameters} | {body:?} | ")
}

#[test]
fn the_readme_describes_every_program() {
    let readme = fs::read_to_string(samples("README.md")).unwrap();
    for (name, program) in programs() {
        assert!(readme.contains(&format!("\n| `programs/{name}` | ")));
        let functions = program.functions.iter().enumerate();
        let starts = functions.map(|(number, function)| line(number, function));
        assert_rows(&section(&readme, name), "function", starts.collect());
    }
}

// Their listings

#[test]
fn there_are_no_other_listings() {
    let expected = programs().map(|(name, _)| format!("{name}.listing"));
    assert_eq!(files("listings"), expected);
}

#[test]
fn the_listings_are_the_programs() {
    for (name, _) in programs() {
        let listing = bytes(&format!("listings/{name}.listing"));
        let file = bytes(&format!("programs/{name}.program"));
        assert_eq!(listing, reference::listing(&file).as_bytes(), "{name}");
        let program = format!("samples/programs/{name}.program");
        let output = hogvax_at_root(&["listing", &program]);
        assert_eq!(output.stdout, listing, "{name}");
        assert_eq!(output.status.success(), verdict(name).is_ok(), "{name}");
    }
    let grow = String::from_utf8(bytes("listings/grow.listing")).unwrap();
    assert_eq!(grow, reference::translate::known::GROW_LISTING);
}

#[test]
fn the_code_files_are_the_programs() {
    for (name, _) in codes() {
        let program = bytes(&format!("programs/{name}.program"));
        let code = bytes(&format!("code/{name}.code"));
        assert_eq!(hogvax::translate(&program), Ok(code), "{name}");
    }
}
