//! The names, types and words that are reported: refusals 8 to 10.

use super::*;

/// The name that is reported to be the last bound one can be used, the next can't.
#[test]
fn the_names_told_are_those_bound() {
    let mut tried = Tried::new();
    each_refused(9, |records, explanation| {
        let place = explanation.record;
        let what = match records[place].kind {
            kind::VAR => "number",
            _ => "tree",
        };
        let bound = explanation.details[0].text.strip_suffix(" bound here");
        let words: Vec<&str> = bound.unwrap().split(' ').collect();
        let count = match words[..] {
            ["no", _, "is"] => 0,
            [_, "0", "is"] => 1,
            [_, "0", "and", "1", "are"] => 2,
            [_, "0", "to", last, "are"] => last.parse::<usize>().unwrap() + 1,
            _ => panic!("{explanation:?}"),
        };
        if count > 0 {
            let last = with_name(records, place, count - 1);
            assert!(still_refused(&last, 9, place).is_none());
            tried.once("bound");
        }
        let next = with_name(records, place, count);
        assert!(still_refused(&next, 9, place).is_some());
        tried.once(what);
    });
    tried.assert_often(&["bound", "number", "tree"], 50);
}

/// A record with as many parts that gives the other type may stand there. Where
/// it is reported that the function's own result is why, another result is another
/// reason.
#[test]
fn the_type_told_is_the_one_expected() {
    let mut tried = Tried::new();
    each_refused(8, |records, explanation| {
        let place = explanation.record;
        let (expected, other) = match records[place].kind {
            kind::NODE => ("a number", kind::ADD),
            kind::ADD => ("a tree", kind::NODE),
            _ => ("", kind::CONST),
        };
        if !expected.is_empty() {
            assert!(explanation.message.starts_with(expected));
            let mut mended = records.to_vec();
            mended[place].kind = other;
            assert!(still_refused(&mended, 8, place).is_none());
            tried.once(expected);
        }
        let k = function_at(records, place);
        let gives = format!("function {k} gives a ");
        if told(explanation, &gives).is_some() {
            let mut mended = records.to_vec();
            mended[1 + k].kind ^= 1;
            assert!(still_refused(&mended, 8, place).is_none());
            tried.once("result");
        }
        for detail in &explanation.details {
            if detail.text.starts_with("this ") {
                let whole = detail.record.unwrap();
                assert!(usize::from(records[0].a) < whole && whole < place);
                tried.once("part");
            }
        }
    });
    tried.assert_often(&["a number", "a tree", "result", "part"], 15);
}

/// So many words as a detail of them tells.
fn words_told(text: &str) -> usize {
    let words: Vec<&str> = text.split(' ').collect();
    let name = |word: &str| word.trim_end_matches(':').parse::<usize>().unwrap();
    match words[..] {
        ["number", ..] => 1,
        ["numbers", first, "and" | "to", last, ..] => name(last) - name(first) + 1,
        ["waiting:", "the", "first", "number" | "argument", ..] => 1,
        ["waiting:", "the", "first", count, "arguments", ..] => name(count),
        _ => panic!("no word: {text}"),
    }
}

#[test]
fn sixteen_words_are_told() {
    let mut tried = Tried::new();
    each_refused(10, |_, explanation| {
        let texts = explanation.details.iter().map(|detail| &detail.text);
        let words: usize = texts.clone().map(|text| words_told(text)).sum();
        assert_eq!(words, 16, "{explanation:?}");
        for (name, part) in [
            ("parameters", "parameter"),
            ("Let", "the number of 'Let'"),
            ("label", "the label of tree"),
            ("Add", "the first number of 'Add'"),
            ("argument", "the first argument of"),
            ("arguments", "arguments of"),
        ] {
            if texts.clone().any(|text| text.contains(part)) {
                tried.once(name);
            }
        }
    });
    let names = ["parameters", "Let", "label", "Add", "argument", "arguments"];
    tried.assert_often(&names, 2);
}
