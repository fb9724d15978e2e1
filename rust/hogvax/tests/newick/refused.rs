//! Texts that are refused, each with its line and column.

use hogvax::newick::{read, read_bytes};

/// The line that tells why a text is refused.
#[track_caller]
fn fault(text: &[u8]) -> String {
    match read(text) {
        Ok(trees) => panic!("{}: {trees:?}", super::shown(text)),
        Err(fault) => fault.to_string(),
    }
}

/// Each text is refused so.
#[track_caller]
fn assert_faults(cases: &[(&str, &str)]) {
    for (text, told) in cases {
        assert_eq!(fault(text.as_bytes()), *told, "{text:?}");
    }
}

#[test]
fn a_third_branch_is_told_at_its_comma() {
    let told = |place| format!("{place}: a fork has two branches, and this is a third");
    for (text, place) in [
        ("(1,2,3);", "1:5"),
        ("(1,2,(3,4));", "1:5"),
        ("((1,2),3,4);", "1:9"),
        ("((1,2,3),4);", "1:6"),
        ("(1,\n2\n,3);", "3:1"),
        ("(1,2:0.5[a] ,", "1:13"),
    ] {
        assert_eq!(fault(text.as_bytes()), told(place), "{text}");
    }
}

#[test]
fn a_single_branch_is_told_at_its_end() {
    let told = |place| format!("{place}: a fork has two branches, and this one has 1");
    for (text, place) in [
        ("(1);", "1:3"),
        ("((1,2));", "1:7"),
        ("((1),2);", "1:4"),
        ("(1:0.5\n );", "2:2"),
        ("(((1,2)a)", "1:9"),
    ] {
        assert_eq!(fault(text.as_bytes()), told(place), "{text}");
    }
}

#[test]
fn a_tip_that_is_no_whole_number_is_told_where_it_begins() {
    let long = "x".repeat(33);
    let shown = &long[1..];
    let exact = format!("1:2: the tip '{shown}' is not a whole number");
    assert_eq!(fault(format!("({shown},1);").as_bytes()), exact);
    let cut = format!("1:2: the tip '{shown}...' is not a whole number");
    assert_eq!(fault(format!("({long},1);").as_bytes()), cut);
    assert_faults(&[
        (
            "Homo_sapiens;",
            "1:1: the tip 'Homo_sapiens' is not a whole number",
        ),
        ("(1, 2.0);", "1:5: the tip '2.0' is not a whole number"),
        ("(1,1e3);", "1:4: the tip '1e3' is not a whole number"),
        ("(+,1);", "1:2: the tip '+' is not a whole number"),
        ("(1,\n -);", "2:2: the tip '-' is not a whole number"),
        ("+-1;", "1:1: the tip '+-1' is not a whole number"),
        ("1-;", "1:1: the tip '1-' is not a whole number"),
        ("0x10;", "1:1: the tip '0x10' is not a whole number"),
        ("'';", "1:1: the tip '' is not a whole number"),
        ("' 1';", "1:1: the tip ' 1' is not a whole number"),
        ("'1''2';", "1:1: the tip '1'2' is not a whole number"),
        ("'1\n2';", "1:1: the tip '1\\n2' is not a whole number"),
        ("(Bäume,1);", "1:2: the tip 'Bäume' is not a whole number"),
        ("\u{663};", "1:1: the tip '\u{663}' is not a whole number"),
        ("1_000;", "1:1: the tip '1_000' is not a whole number"),
        ("\"1\";", "1:1: the tip '\"1\"' is not a whole number"),
        ("\\1;", "1:1: the tip '\\1' is not a whole number"),
        ("\u{a0}1;", "1:1: the tip '\\u{a0}1' is not a whole number"),
        (
            " \u{feff}1;",
            "1:2: the tip '\\u{feff}1' is not a whole number",
        ),
    ]);
}

#[test]
fn a_label_out_of_range_is_told_where_it_begins() {
    let range = "is out of range: -2147483648 to 2147483647";
    for label in [
        "2147483648",
        "+2147483648",
        "-2147483649",
        "4294967296",
        "-4294967296",
        "0002147483648",
        "9223372036854775808",
        "-9223372036854775809",
        "18446744073709551617",
    ] {
        let told = format!("1:4: the label {label} {range}");
        assert_eq!(fault(format!("(1,{label});").as_bytes()), told);
        assert_eq!(fault(format!("(1,'{label}');").as_bytes()), told);
    }
    let nines = "9".repeat(1_000_000);
    let told = format!("1:1: the label {}... {range}", &nines[..32]);
    assert_eq!(fault(format!("{nines};").as_bytes()), told);
}

#[test]
fn a_tip_without_a_label_is_told() {
    let told = |place| format!("{place}: a tip has a label, and here is none");
    for (text, place) in [
        (";", "1:1"),
        ("1;;", "1:3"),
        ("();", "1:2"),
        ("(,);", "1:2"),
        ("(1,);", "1:4"),
        ("(,1);", "1:2"),
        ("(1,;", "1:4"),
        (":1;", "1:1"),
        ("(:0.1,2);", "1:2"),
        (",1;", "1:1"),
        ("(1,\n[a] );", "2:5"),
    ] {
        assert_eq!(fault(text.as_bytes()), told(place), "{text}");
    }
}

#[test]
fn a_fork_that_is_not_closed_is_told_at_the_end() {
    assert_faults(&[
        ("(", "1:2: no ')' for the '(' at 1:1"),
        ("(1", "1:3: no ')' for the '(' at 1:1"),
        ("(1,", "1:4: no ')' for the '(' at 1:1"),
        ("(1,2", "1:5: no ')' for the '(' at 1:1"),
        ("(1,2\n", "2:1: no ')' for the '(' at 1:1"),
        ("(1,2:3", "1:7: no ')' for the '(' at 1:1"),
        ("(1,\n (2,3)a", "2:8: no ')' for the '(' at 1:1"),
        ("(1,\n (2,3[a]", "2:9: no ')' for the '(' at 2:2"),
        ("((1,2);", "1:7: no ')' for the '(' at 1:1"),
        ("(1;", "1:3: no ')' for the '(' at 1:1"),
        ("(1,(2,3;", "1:8: no ')' for the '(' at 1:4"),
    ]);
}

#[test]
fn a_tree_that_is_not_closed_is_told_at_the_end() {
    assert_faults(&[
        ("1", "1:2: the tree has no ';' at its end"),
        ("(1,2)", "1:6: the tree has no ';' at its end"),
        ("(1,2)\n", "2:1: the tree has no ';' at its end"),
        ("(1,2)a:5", "1:9: the tree has no ';' at its end"),
        ("1;2", "1:4: the tree has no ';' at its end"),
        ("1;\r\n2\r\n\r\n", "4:1: the tree has no ';' at its end"),
        ("1 [a]", "1:6: the tree has no ';' at its end"),
    ]);
}

#[test]
fn a_quote_or_comment_that_is_not_closed_is_told_where_it_opens() {
    assert_faults(&[
        ("'", "1:1: this quote is not closed"),
        ("(1,'2);\n", "1:4: this quote is not closed"),
        ("(1,2)\n'it''s;", "2:1: this quote is not closed"),
        ("'1''", "1:1: this quote is not closed"),
        ("[", "1:1: this comment is not closed"),
        ("1;\n [a [b] ;", "2:2: this comment is not closed"),
        ("(1[,2);", "1:3: this comment is not closed"),
        ("(1,2):[", "1:7: this comment is not closed"),
    ]);
}

#[test]
fn another_sign_than_the_expected_one_is_told() {
    assert_faults(&[
        ("(1 2,3);", "1:4: ',' expected, and here is '2'"),
        ("(1(2,3));", "1:3: ',' expected, and here is '('"),
        ("(1'2',3);", "1:3: ',' expected, and here is a quote"),
        ("(1]", "1:3: ',' expected, and here is ']'"),
        ("(1:2:3,4);", "1:5: ',' expected, and here is ':'"),
        ("((1,2)a'b',3);", "1:8: ',' expected, and here is a quote"),
        ("(1,2 3);", "1:6: ')' expected, and here is '3'"),
        ("(1,(2,3)(4,5));", "1:9: ')' expected, and here is '('"),
        ("(1,'2'3);", "1:7: ')' expected, and here is '3'"),
        ("(1,2[a]3);", "1:8: ')' expected, and here is '3'"),
        ("1,2;", "1:2: ';' expected, and here is ','"),
        ("1 2;", "1:3: ';' expected, and here is '2'"),
        ("(1,2)a b;", "1:8: ';' expected, and here is 'b'"),
        ("(1,2)(3,4);", "1:6: ';' expected, and here is '('"),
        ("1];", "1:2: ';' expected, and here is ']'"),
        ("1\u{b};", "1:2: ';' expected, and here is '\\u{b}'"),
        ("1:2:3;", "1:4: ';' expected, and here is ':'"),
        ("1);", "1:2: no '(' for this ')'"),
        ("(1,2));", "1:6: no '(' for this ')'"),
        ("1;\n)", "2:1: no '(' for this ')'"),
        ("];", "1:1: a tip or a fork expected, and here is ']'"),
        (
            "(1,\0);",
            "1:4: a tip or a fork expected, and here is '\\0'",
        ),
        (
            "\u{1b}[0m",
            "1:1: a tip or a fork expected, and here is '\\u{1b}'",
        ),
        (
            "\u{85};",
            "1:1: a tip or a fork expected, and here is '\\u{85}'",
        ),
    ]);
}

#[test]
fn a_branch_length_that_is_no_number_is_told() {
    for length in [
        "x", "-", "+", ".", "-.", "1e", "1e+", "e5", ".e5", "1.2.3", "1e5.5", "1e5e5", "--1", "1-",
        "0x10", "inf", "nan", "NaN", "infinity", "1f", "1_000", "\u{661}",
    ] {
        let told = format!("1:4: the branch length '{length}' is not a number");
        assert_eq!(fault(format!("(1:{length},2);").as_bytes()), told);
    }
    let long = format!("1{}x", "0".repeat(99));
    let told = format!(
        "1:3: the branch length '{}...' is not a number",
        &long[..32]
    );
    assert_eq!(fault(format!("1:{long};").as_bytes()), told);
    let told = |place| format!("{place}: a branch length follows ':', and here is none");
    for (text, place) in [
        ("1:;", "1:3"),
        ("(1:,2);", "1:4"),
        ("(1,2:);", "1:6"),
        ("(1,2):", "1:7"),
        ("1:\n'5';", "2:1"),
        ("1:[a]:;", "1:6"),
        ("1:(;", "1:3"),
        ("1:\0;", "1:3"),
    ] {
        assert_eq!(fault(text.as_bytes()), told(place), "{text}");
    }
}

/// A column is a character, a tab is one, and a line ends with its line feed.
#[test]
fn columns_count_characters() {
    assert_faults(&[
        ("[é樹🌳]x;", "1:6: the tip 'x' is not a whole number"),
        ("\t\tx;", "1:3: the tip 'x' is not a whole number"),
        ("\r\rx;", "1:3: the tip 'x' is not a whole number"),
        ("\r\nx;", "2:1: the tip 'x' is not a whole number"),
        ("\n\n x;", "3:2: the tip 'x' is not a whole number"),
        ("'\n'", "1:1: the tip '\\n' is not a whole number"),
        ("(1,'2'[\n\n]x", "3:2: ')' expected, and here is 'x'"),
    ]);
}

#[test]
fn bytes_that_are_not_utf_8_are_told_where_they_stand() {
    for wrong in [
        &b"\xff"[..],
        b"\x80",
        b"\xc0\xaf",
        b"\xc1\xbf",
        b"\xc3",
        b"\xc3(",
        b"\xe2\x82",
        b"\xe2\x82x",
        b"\xe2(\xa1",
        b"\xe0\x80\xaf",
        b"\xed\xa0\x80",
        b"\xf0\x9f\x8c",
        b"\xf0\x28\x8c\xbc",
        b"\xf4\x90\x80\x80",
        b"\xf5\x80\x80\x80",
        b"\xf8\x88\x80\x80\x80",
    ] {
        let told = |place| format!("{place}: this is not UTF-8: byte {:#04x}", wrong[0]);
        for (start, place) in [
            (&b""[..], "1:1"),
            (b"(1,", "1:4"),
            (b"(1,2", "1:5"),
            ("(1,2)é".as_bytes(), "1:7"),
            ("(1,\n'é樹".as_bytes(), "2:4"),
            ("[é樹🌳".as_bytes(), "1:5"),
            (b"1:", "1:3"),
            (b"1;\n", "2:1"),
        ] {
            let text = [start, wrong].concat();
            assert_eq!(fault(&text), told(place), "{text:x?}");
            assert_eq!(fault(&[&text, &b" 1;"[..]].concat()), told(place));
        }
    }
}

/// The first fault from the left is reported, whatever follows.
#[test]
fn the_first_fault_is_told() {
    assert_eq!(fault(b"(1,2,\xff"), fault(b"(1,2,3);"));
    assert_eq!(fault(b"(x,2,3"), "1:2: the tip 'x' is not a whole number");
    assert_eq!(fault(b"(1,2));'"), "1:6: no '(' for this ')'");
}

/// Nothing after a fault is read, so it need not end.
#[test]
fn endless_text_is_refused_at_its_first_fault() {
    for (text, rest) in [
        ("", b'\0'),
        ("", b'('),
        ("", b','),
        ("(1,2,", b'x'),
        ("(1);", b' '),
        ("(1,2)(", b'['),
    ] {
        let endless = std::iter::repeat(rest);
        read_bytes(text.bytes().chain(endless)).unwrap_err();
    }
}
