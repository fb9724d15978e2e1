//! Texts as long as they may be, and longer.

use hogvax::assembly::{read, LONGEST_TEXT};
use reference::Record;

use super::*;

const FUNCTION: &str = "function 0 takes tree 0 gives tree\n";

/// So many functions, each with a node.
fn functions(count: usize) -> String {
    let function = |number| format!("function {number} takes tree 0 gives tree\nCall 0 on 0\n");
    (0..count).map(function).collect()
}

/// A function with so many number parameters.
fn parameters(count: usize) -> String {
    let numbers: String = (0..count)
        .map(|number| format!(", number {number}"))
        .collect();
    format!("function 0 takes tree 0{numbers} gives tree")
}

/// A text of so many bytes, the last of which are a comment.
fn of_length(text: &str, bytes: usize) -> String {
    let comment = "#".repeat(bytes - text.len());
    format!("{text}{comment}")
}

#[test]
fn a_header_counts_255_functions() {
    let text = read(functions(255).as_bytes()).unwrap();
    assert_eq!(text.records.len(), 8 * (1 + 255 + 255));
    assert_eq!(Record::list(&text.records)[0].a, 255);
    let told = "511:1: record 256: a header counts up to 255 functions, and this is one more";
    assert_eq!(fault(functions(256)), told);
    assert_eq!(fault(functions(1_000)), told);
}

#[test]
fn a_header_counts_65535_nodes() {
    let nodes = |count| format!("{FUNCTION}{}", "Add\n".repeat(count));
    let text = read(nodes(65_535).as_bytes()).unwrap();
    assert_eq!(text.records.len(), 8 * (2 + 65_535));
    let records = Record::list(&text.records);
    assert_eq!((records[0].b, records[1].b), (65_535, 65_535));
    let told = "65537:1: record 65537: a header counts up to 65535 nodes, and this is one more";
    assert_eq!(fault(nodes(65_536)), told);
    assert_eq!(fault(nodes(200_000)), told);
}

#[test]
fn a_function_has_255_number_parameters() {
    let text = read(parameters(255).as_bytes()).unwrap();
    assert_eq!(Record::list(&text.records)[1].a, 255);
    assert_eq!(text.line(1), Some(parameters(255)));
    for count in [256, 257, 1_000, 60_000] {
        let told =
            format!("1:1: record 1: a record has room for 255 number parameters, not {count}");
        assert_eq!(fault(parameters(count)), told);
    }
}

/// A byte-order mark counts as any other bytes.
#[test]
fn a_text_has_a_mebibyte() {
    assert_eq!(LONGEST_TEXT, 1_048_576);
    let marked = format!("\u{feff}{GROW}");
    for text in [GROW, &marked] {
        let records = sample("grow.records");
        for length in [LONGEST_TEXT - 1, LONGEST_TEXT] {
            let text = read(of_length(text, length).as_bytes());
            assert_eq!(text.unwrap().records, records);
        }
        let column = LONGEST_TEXT - GROW.len() + 1 - (text.len() - GROW.len());
        let told = "the text goes on here, and it may have 1048576 bytes at most";
        for length in [LONGEST_TEXT + 1, LONGEST_TEXT + 2, 3 * LONGEST_TEXT] {
            assert_eq!(
                fault(of_length(text, length)),
                format!("11:{column}: {told}")
            );
        }
    }
}

/// One line of a mebibyte, and a mebibyte of lines.
#[test]
fn long_texts_are_read_in_one_pass() {
    let commas = format!("{}{}", FUNCTION.trim_end(), ",".repeat(1_000_000));
    assert!(fault(commas).starts_with("1:35: record 1: ',' is too much; "));
    let words = format!("{FUNCTION}Add{}", " x".repeat(500_000));
    assert!(fault(words).starts_with("2:5: record 2: 'x' is too much; "));
    let blank = format!("{FUNCTION}{}Adds", "\n".repeat(1_000_000));
    assert_eq!(
        fault(blank),
        "1000002:1: record 2: no kind of record is called 'Adds'"
    );
    let word = format!("{FUNCTION}{}", "x".repeat(1_000_000));
    let shown = "x".repeat(40);
    assert_eq!(
        fault(word),
        format!("2:1: record 2: no kind of record is called '{shown}...'")
    );
}
