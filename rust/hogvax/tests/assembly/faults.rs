//! Texts that can't be put into records: what is reported of them, and where.

use hogvax::assembly::LONGEST_TEXT;

use super::*;

const FUNCTION: &str = "function 0 takes tree 0 gives tree\n";

/// This is reported of the text.
fn assert_told(text: &str, told: &str) {
    assert_eq!(fault(text), told, "{text}");
}

/// A record after a function line is reported so, its column counted from its
/// own line's start.
fn assert_record_told(record: &str, column: usize, message: &str) {
    let told = format!("2:{column}: record 2: {message}");
    assert_told(&format!("{FUNCTION}{record}"), &told);
}

#[test]
fn unknown_words_are_told() {
    for (word, near) in [
        ("Vra", None),
        ("5:", None),
        ("Const-1", None),
        ("Funktion", None),
        ("'Case'", None),
        ("Ca\u{17f}e", None),
        ("case", Some("Case")),
        ("CASE", Some("Case")),
        ("ifzero", Some("IfZero")),
        ("Ifzero", Some("IfZero")),
        ("VAR", Some("Var")),
        ("call", Some("Call")),
    ] {
        let message = match near {
            None => format!("no kind of record is called '{word}'"),
            Some(near) => format!("no kind of record is called '{word}'; '{near}' is meant?"),
        };
        assert_record_told(&format!("  {word} 0"), 3, &message);
    }
    let told = "1:1: record 1: no kind of record is called 'Function'; 'function' is meant?";
    assert_told("Function 0 takes tree 0 gives tree", told);
}

/// A word may be long, and may have what a terminal doesn't show.
#[test]
fn words_are_shown_so_that_they_can_be_read() {
    for (word, shown) in [
        ("Var\u{a0}0", r"Var\u{a0}0"),
        ("\u{1b}[2J", r"\u{1b}[2J"),
        ("\rVar", r"\rVar"),
        ("\u{feff}Var", r"\u{feff}Var"),
        ("\u{e4}\u{6f22}", "\u{e4}\u{6f22}"),
        (&"x".repeat(40), &"x".repeat(40)),
        (&"\u{e4}".repeat(41), &format!("{}...", "\u{e4}".repeat(40))),
    ] {
        assert_record_told(word, 1, &format!("no kind of record is called '{shown}'"));
    }
}

#[test]
fn a_text_begins_with_a_function_line() {
    let message = "a text begins with a function line: function 0 takes tree 0 gives tree";
    for (text, place, record) in [
        ("Case 0", "1:1", 1),
        ("\n # x\n  hello world", "3:3", 1),
        ("3 Case 0\nfunction 0 takes tree 0 gives tree", "1:3", 2),
        ("((1,2),3);", "1:1", 1),
        (",", "1:1", 1),
    ] {
        assert_told(text, &format!("{place}: record {record}: {message}"));
    }
}

#[test]
fn operands_that_are_missing_or_too_much_are_told() {
    let alone = |name| format!("{name} stands alone, and its parts follow on lines of their own");
    let cases = [
        ("Const", "Const takes a number: Const -1".to_owned(), " 5"),
        (
            "Var",
            "Var takes the name of a number: Var 0".to_owned(),
            " 5",
        ),
        (
            "Case",
            "Case takes the name of a tree: Case 0".to_owned(),
            " 5",
        ),
        ("Add", alone("Add"), ""),
        ("IfZero", alone("IfZero"), ""),
        ("Let", alone("Let"), ""),
        ("Leaf", alone("Leaf"), ""),
        ("Node", alone("Node"), ""),
    ];
    for (name, form, operands) in cases {
        let after = 1 + name.len();
        if !operands.is_empty() {
            let told = format!("the line ends too early; {form}");
            assert_record_told(name, after, &told);
            assert_record_told(&format!("{name}   # 5"), after, &told);
        }
        for surplus in ["Var", "0", ","] {
            let record = format!("{name}{operands} {surplus} 7");
            let told = format!("'{surplus}' is too much; {form}");
            assert_record_told(&record, after + operands.len() + 1, &told);
        }
    }
}

#[test]
fn operands_of_a_call_are_told() {
    let form = "Call takes a function and a tree: Call 0 on 1";
    for (record, column) in [
        ("Call", 5),
        ("Call 0", 7),
        ("Call 0 on", 10),
        ("Call 0  on ", 11),
    ] {
        assert_record_told(record, column, &format!("the line ends too early; {form}"));
    }
    for (record, column, word) in [
        ("Call 0 1", 8, "1"),
        ("Call 0 On 1", 8, "On"),
        ("Call 0,on 1", 7, ","),
    ] {
        let told = format!("'{word}' stands where 'on' is expected; {form}");
        assert_record_told(record, column, &told);
    }
    assert_record_told("Call 0 on 1 2", 13, &format!("'2' is too much; {form}"));
}

#[test]
fn numbers_that_do_not_fit_are_told() {
    let names = [
        "256",
        "-1",
        "+1",
        "x",
        "0x1",
        "1.5",
        "9999999999",
        "\u{661}",
    ];
    for name in names {
        for (record, column, what) in [
            ("Var", 5, "the name of a number"),
            ("Case", 6, "the name of a tree"),
            ("Call 0 on", 11, "the name of a tree"),
        ] {
            let told = format!("{what} is 0 to 255, not '{name}'");
            assert_record_told(&format!("{record} {name}"), column, &told);
        }
    }
    for number in [
        "2147483648",
        "-2147483649",
        "--1",
        "-",
        "+5",
        "1e3",
        "1_000",
        "five",
    ] {
        let told = format!("a number is -2147483648 to 2147483647, not '{number}'");
        assert_record_told(&format!("Const {number}"), 7, &told);
    }
    for function in ["65536", "-1", "sum"] {
        let told = format!("a function is 0 to 65535, not '{function}'");
        assert_record_told(&format!("Call {function} on 1"), 6, &told);
    }
}

#[test]
fn function_lines_that_end_too_early_are_told() {
    let told = "the line ends too early; a function line is: function 0 takes tree 0 gives tree";
    let whole = "function 0 takes tree 0 , number 0 , number 1 gives";
    let ends = whole.match_indices(' ').map(|(end, _)| end);
    for end in ends.chain([whole.len()]) {
        let line = format!("{}  # comment", &whole[..end]);
        assert_told(&line, &format!("1:{}: record 1: {told}", end + 1));
    }
}

#[test]
fn other_words_in_function_lines_are_told() {
    let form = "a function line is: function 0 takes tree 0 gives tree";
    for (start, word, rest, expected) in [
        ("function 0 ", "take", " tree 0", "'takes'"),
        ("function 0 takes ", "number", " 0", "'tree'"),
        ("function 0 takes tree 0 ", "number", " 0", "',' or 'gives'"),
        ("function 0 takes tree 0, ", "tree", " 1", "'number'"),
        ("function 0 takes tree 0,", ",", " number 0", "'number'"),
        (
            "function 0 takes tree 0 gives ",
            "Tree",
            "",
            "'number' or 'tree'",
        ),
    ] {
        let column = start.len() + 1;
        let told = format!("'{word}' stands where {expected} is expected; {form}");
        assert_told(
            &format!("{start}{word}{rest}"),
            &format!("1:{column}: record 1: {told}"),
        );
    }
    let told = format!("1:36: record 1: 'Case' is too much; {form}");
    assert_told("function 0 takes tree 0 gives tree Case 0", &told);
}

#[test]
fn functions_and_parameters_out_of_turn_are_told() {
    let functions = "functions count from 0: this is function 0";
    let trees = "a function takes one tree, which is tree 0";
    let numbers = "number parameters count from 0: this is number";
    let (number_0, number_1) = (format!("{numbers} 0"), format!("{numbers} 1"));
    for (start, word, message) in [
        ("function ", "1", functions),
        ("function ", "grow", functions),
        ("function ", "-0", functions),
        ("function 0 takes tree ", "1", trees),
        ("function 0 takes tree 0, number ", "1", &number_0),
        ("function 0 takes tree 0, number 0, number ", "0", &number_1),
    ] {
        let column = start.len() + 1;
        let told = format!("1:{column}: record 1: {message}, not '{word}'");
        assert_told(&format!("{start}{word} takes"), &told);
    }
    let twice = format!("{FUNCTION}{FUNCTION}");
    let told = "2:10: record 2: functions count from 0: this is function 1, not '0'";
    assert_told(&twice, told);
}

/// The first one in the text, and of a line the first from its start.
#[test]
fn the_first_fault_is_told() {
    assert_record_told(
        "Case x\nVar y\n",
        6,
        "the name of a tree is 0 to 255, not 'x'",
    );
    assert_record_told("Call x in y", 6, "a function is 0 to 65535, not 'x'");
}

/// Nodes are numbered after all functions of the text.
#[test]
fn a_message_has_the_number_of_the_record() {
    let text = "\
function 0 takes tree 0 gives tree
  Call 1 on 0
function 1 takes tree 0 gives tree
  Call 2 on 0
    # a comment
  Var x
function 2 takes tree 0 gives tree
  Call 1 on 0
";
    let told = "6:7: record 6: the name of a number is 0 to 255, not 'x'";
    assert_told(text, told);
}

// Bytes

#[test]
fn bytes_that_are_not_utf_8_are_told_with_their_place() {
    let told = "these bytes are no character of UTF-8";
    for (bytes, place) in [
        (&b"\xff"[..], "1:1"),
        (b"# a\xc3\xa4b\xe2\x82 c", "1:6"),
        (b"# \xe6\xbc\xa2\n\xc3\xa4 \x80", "2:3"),
        (b"# \xed\xa0\x80", "1:3"),
        (b"# \xc0\x80", "1:3"),
        (b"\xef\xbb\xbf# \xf5", "1:3"),
        (b"\xef\xbb", "1:1"),
        (b"# a\r\n#\xf0\x9f\x8c", "2:2"),
    ] {
        assert_eq!(fault(bytes), format!("{place}: {told}"), "{bytes:?}");
    }
}

#[test]
fn a_zero_byte_is_told_with_its_place() {
    let told = "a zero byte, which no text has";
    assert_eq!(fault(b"\0"), format!("1:1: {told}"));
    assert_eq!(fault(b"# a\n#\xc3\xa4 \0 \xff"), format!("2:4: {told}"));
    assert_eq!(fault(sample("grow.program")), format!("1:4: {told}"));
    assert_eq!(fault(vec![0; 2 * LONGEST_TEXT]), format!("1:1: {told}"));
}
