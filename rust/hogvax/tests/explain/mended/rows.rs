//! The records that are reported to be left over or missing: refusal 7.

use super::*;

/// How many parts a detail tells to be missing.
fn parts_missing(text: &str) -> usize {
    let (_, lacks) = text.rsplit_once("' ").unwrap();
    let words: Vec<&str> = lacks.split(' ').collect();
    let number = |word: &str| word.parse::<usize>().unwrap();
    match words[..] {
        ["has", has, "of", "its", needs, "arguments"] => number(needs) - number(has),
        ["lacks", "its", needs, "arguments"] => number(needs),
        ["lacks", ..] => words.iter().filter(|&&word| word == "its").count(),
        _ => panic!("nothing is missing: {text}"),
    }
}

/// A function that lacks parts is whole with so many records more at its end;
/// one with records left over is whole without them.
#[test]
fn a_function_is_whole_without_what_is_left_over_or_with_what_it_lacks() {
    let mut tried = Tried::new();
    each_refused(7, |records, explanation| {
        let place = explanation.record;
        let k = function_at(records, place);
        let end = place + usize::from(records[1 + k].b);
        let mut mended = records.to_vec();
        let mut details = explanation.details.iter();
        let next = details.find(|detail| detail.text.ends_with("begins another"));
        let (name, change) = match next {
            Some(detail) => {
                let next = detail.record.unwrap();
                mended.drain(next..end);
                ("left over", next as isize - end as isize)
            }
            None if told(explanation, "and ").is_some() => return,
            None => {
                let details = explanation.details.iter();
                let missing = details.map(|detail| parts_missing(&detail.text)).sum();
                let parts = vec![Record::default(); missing];
                mended.splice(end..end, parts);
                ("lacking", missing as isize)
            }
        };
        for record in [0, 1 + k] {
            mended[record].b = mended[record].b.wrapping_add_signed(change as i16);
        }
        if mended[0].b <= 1_024 {
            assert!(still_refused(&mended, 7, place).is_none());
            tried.once(name);
        }
    });
    tried.assert_often(&["left over", "lacking"], 30);
}
