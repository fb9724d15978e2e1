//! Numbers that lines give to their records.

use hogvax::assembly::{read, show, Numbers};

use super::*;

/// The text of a sample, each line with its number, the comment before it
/// left out.
fn numbered(name: &str) -> Vec<String> {
    let text = show(&sample(&format!("{name}.program")), Numbers::Shown).unwrap();
    text.lines().skip(1).map(str::to_owned).collect()
}

/// Whether a text is read, and is a program.
fn is_a_program(lines: &[String]) -> bool {
    let text = read(lines.join("\n").as_bytes());
    text.is_ok_and(|text| hogvax::pack(&text.records).is_ok())
}

#[test]
fn numbers_may_stand_on_any_line() {
    for name in SAMPLES {
        let records = sample(&format!("{name}.records"));
        let lines = numbered(name);
        for bare in 0..=lines.len() {
            let mut lines = lines.clone();
            for line in &mut lines[bare..] {
                let digits = |character: char| character.is_ascii_digit();
                *line = line.trim_start().trim_start_matches(digits).to_owned();
            }
            assert_eq!(read(lines.join("\n").as_bytes()).unwrap().records, records);
        }
    }
}

#[test]
fn lines_exchanged_are_noticed() {
    for name in SAMPLES {
        let lines = numbered(name);
        assert!(is_a_program(&lines));
        for one in 0..lines.len() {
            for other in one + 1..lines.len() {
                let mut lines = lines.clone();
                lines.swap(one, other);
                assert!(!is_a_program(&lines), "{name}: {one} and {other}");
            }
        }
    }
}

#[test]
fn a_line_lost_or_doubled_is_noticed() {
    for name in SAMPLES {
        let lines = numbered(name);
        for place in 0..lines.len() {
            let mut fewer = lines.clone();
            let line = fewer.remove(place);
            assert!(!is_a_program(&fewer), "{name}: {place} lost");
            let mut more = lines.clone();
            more.insert(place, line);
            assert!(!is_a_program(&more), "{name}: {place} doubled");
        }
    }
}

#[test]
fn a_wrong_number_is_told() {
    let text = |number: &str| format!("function 0 takes tree 0 gives tree\n  {number} Call 0 on 0");
    assert!(read(text("2").as_bytes()).is_ok());
    assert!(read(text("002").as_bytes()).is_ok());
    for number in [
        "0",
        "1",
        "3",
        "12",
        "18446744073709551618",
        "340282366920938463463374607431768211458",
    ] {
        let told = format!(
            "2:3: record 2: the number given is '{number}': a line before this one is lost, \
             added or moved (numbers may be left out)"
        );
        assert_eq!(fault(text(number)), told);
    }
}

#[test]
fn the_first_wrong_number_is_told() {
    let text = "1 function 0 takes tree 0 gives tree\n2 Leaf\n4 Add\n5 Var 0\n9 Var 0";
    let told = "3:1: record 3: the number given is '4': ";
    assert!(fault(text).starts_with(told));
}

/// A function line that isn't one is why the numbers are wrong.
#[test]
fn a_line_that_cannot_be_read_is_told_before_a_wrong_number() {
    let text = "\
1 function 0 takes tree 0 gives tree
3   Call 0 on 0
2 functoin 1 takes tree 0 gives tree
4   Call 0 on 0
";
    assert_eq!(
        fault(text),
        "3:3: record 3: no kind of record is called 'functoin'"
    );
}

#[test]
fn a_number_needs_a_record() {
    let text = "function 0 takes tree 0 gives tree\n  2  # Call 0 on 0";
    assert_eq!(fault(text), "2:3: record 2: a number without a record");
    assert_eq!(fault("1"), "1:1: record 1: a number without a record");
}
