//! The records of texts, and where they stand.

use hogvax::assembly::{read, Text};
use hogvax::Place;
use reference::Record;

use super::layouts::Writer;
use super::*;

/// The places of a text's records, as messages have them.
fn places(text: &Text) -> Vec<String> {
    text.places.iter().map(Place::to_string).collect()
}

#[test]
fn a_text_gives_the_records_of_its_program() {
    for (name, text) in [("grow", GROW), ("depth", DEPTH)] {
        let records = read(text.as_bytes()).unwrap().records;
        assert_eq!(records, sample(&format!("{name}.records")), "{name}");
    }
}

/// The header has the place of function 0. Nodes follow all functions.
#[test]
fn a_record_stands_where_its_first_word_is() {
    let text = read(DEPTH.as_bytes()).unwrap();
    let all = [
        "2:1", "2:1", "5:1", "3:3", "4:5", "6:3", "7:5", "8:7", "9:5", "10:7", "11:9", "12:9",
        "13:7", "14:9", "15:11", "16:9", "17:11",
    ];
    assert_eq!(places(&text), all);
    let text = read("\u{feff}1\tfunction 0 takes tree 0 gives tree\r\n  2 Call 0 on 0".as_bytes());
    assert_eq!(places(&text.unwrap()), ["1:3", "1:3", "2:5"]);
}

#[test]
fn each_record_has_its_line() {
    let text = read(DEPTH.as_bytes()).unwrap();
    let words = |number| text.line(number);
    assert_eq!(words(0), None);
    let line = "function 1 takes tree 0, number 0 gives tree";
    assert_eq!(words(2).as_deref(), Some(line));
    assert_eq!(words(3).as_deref(), Some("Call 1 on 0"));
    assert_eq!(words(16).as_deref(), Some("Var 1"));
    assert_eq!(words(17), None);
    assert_eq!(words(usize::MAX), None);
}

/// Every field at its ends.
#[test]
fn operands_go_into_their_fields() {
    let text = "\
function 0 takes tree 0 gives number
Const -2147483648
Const 2147483647
Const -0
Const 007
Var 0
Var 255
Add
IfZero
Let
Leaf
Node
Case 0
Case 255
Call 0 on 255
Call 65535 on 0
";
    let nodes = Record::list(&read(text.as_bytes()).unwrap().records);
    let fields = nodes
        .iter()
        .map(|node| (node.kind, node.a, node.b, node.i as i32));
    let expected = [
        (1, 1, 15, 0),
        (0, 0, 15, 0),
        (0, 0, 0, i32::MIN),
        (0, 0, 0, i32::MAX),
        (0, 0, 0, 0),
        (0, 0, 0, 7),
        (1, 0, 0, 0),
        (1, 255, 0, 0),
        (2, 0, 0, 0),
        (3, 0, 0, 0),
        (4, 0, 0, 0),
        (5, 0, 0, 0),
        (6, 0, 0, 0),
        (7, 0, 0, 0),
        (7, 255, 0, 0),
        (8, 255, 0, 0),
        (8, 0, 65_535, 0),
    ];
    assert_eq!(fields.collect::<Vec<_>>(), expected);
}

/// A function has no node, and the last one has two: what is wrong with it is
/// not the text reader's matter.
#[test]
fn each_function_counts_its_nodes() {
    let text = "\
function 0 takes tree 0 gives tree
  Call 1 on 0
function 1 takes tree 0, number 0, number 1, number 2 gives number
function 2 takes tree 0 gives number
  Var 9
  Var 9
";
    let records = Record::list(&read(text.as_bytes()).unwrap().records);
    let fields = records
        .iter()
        .map(|record| (record.kind, record.a, record.b));
    let expected = [(1, 3, 3), (1, 0, 1), (0, 3, 0), (0, 0, 2)];
    assert_eq!(fields.take(4).collect::<Vec<_>>(), expected);
}

#[test]
fn a_text_without_a_function_is_a_header_alone() {
    for text in [
        "",
        "\n",
        "# Nothing.",
        " \t\r\n\r\n  # Nothing.\n",
        "\u{feff}",
    ] {
        let text = read(text.as_bytes()).unwrap();
        assert_eq!(text.records, [1, 0, 0, 0, 0, 0, 0, 0]);
        assert_eq!(places(&text), ["1:1"]);
    }
}

#[test]
fn any_layout_gives_the_same_records() {
    let (mut random, mut writer) = (Random::new(300), Writer::new(301));
    for _ in 0..600 {
        let program = any_program(&mut random);
        let laid = writer.write(&program);
        let text = read(laid.text.as_bytes()).unwrap();
        assert_eq!(text.records, program.records(), "{}", laid.text);
        assert_eq!(text.places, laid.places, "{}", laid.text);
    }
    writer.assert_all_chosen();
}
