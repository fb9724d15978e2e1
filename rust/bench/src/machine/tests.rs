//! The plain machines are right, so that a comparison with them means something.

use bench::trees::deepest_caterpillar;
use hogvax::{Ran, Refused};
use reference::machine::known;
use reference::machine::FILLER;
use reference::{generate, Random, TestCase};

use crate::computed_goto;
use crate::inputs::programs;
use crate::safe::{safe_perform, RETURN_WORDS, VALUE_WORDS};
use crate::ways::{Lent, PREPARE, WHOLE};

/// A machine that runs code, lent its output, values and returns.
type Machine = fn(&[u8], &[u8], u64, &mut [u8], &mut [u32], &mut [u64]) -> Ran;

const PLAIN: [(&str, Machine); 2] = [("C", computed_goto::perform), ("Rust", safe_perform)];

/// Each plain machine, lent so many words, gives this answer and leaves this
/// whole output.
fn assert_answers(
    case: &TestCase,
    [value_words, return_words]: [usize; 2],
    expected: (Ran, &[u8]),
) {
    for (name, perform) in PLAIN {
        let mut output = vec![FILLER; case.output];
        let (mut values, mut returns) = (vec![7; value_words], vec![7; return_words]);
        let ran = perform(
            &case.code,
            &case.input,
            case.fuel,
            &mut output,
            &mut values,
            &mut returns,
        );
        assert_eq!((ran, &output[..]), expected, "{name}: {case:?}");
    }
}

fn answer(ran: reference::Ran) -> Ran {
    Ran {
        refused: ran.refusal.map(|refusal| Refused {
            number: refusal.number.into(),
            position: refusal.position as u64,
        }),
        units: ran.units,
        read: ran.read,
        written: ran.written,
        number: ran.number,
    }
}

#[test]
fn they_answer_the_known_runs() {
    for known in known::all() {
        let expected = (answer(known.answer), &known.bytes[..]);
        assert_answers(&known.case, [VALUE_WORDS, RETURN_WORDS], expected);
    }
}

#[test]
fn they_answer_as_the_reference_does() {
    let mut random = Random::new(1);
    for _ in 0..5_000 {
        let case = generate::code::any_case(&mut random);
        let (ran, output) = case.perform();
        assert_answers(&case, [VALUE_WORDS, RETURN_WORDS], (answer(ran), &output));
    }
}

#[test]
fn too_few_work_words_are_refused() {
    let case = &known::all()[0].case;
    let refused = Ran {
        refused: Some(Refused {
            number: 13,
            position: 0,
        }),
        units: 0,
        read: 0,
        written: 0,
        number: 0,
    };
    let untouched = vec![FILLER; case.output];
    for words in [
        [VALUE_WORDS - 1, RETURN_WORDS],
        [VALUE_WORDS, RETURN_WORDS - 1],
    ] {
        assert_answers(case, words, (refused, &untouched));
    }
}

#[test]
fn no_caterpillar_is_deeper() {
    for program in programs() {
        let deepest = deepest_caterpillar(program.open);
        let deeper = [&[2], &deepest[..], &[1, 0, 0, 0, 0]].concat();
        for (input, number) in [(deepest, None), (deeper, Some(18))] {
            for way in WHOLE {
                let ran = way.go(&program, &input, &mut Lent::new(input.len()));
                let refused = ran.refused.map(|refused| refused.number);
                assert_eq!(refused, number, "{}: {}", way.name, program.name);
            }
        }
    }
}

#[test]
fn nothing_is_performed_before_the_loop() {
    for program in programs() {
        let tree = deepest_caterpillar(program.open);
        let ran = PREPARE.go(&program, &tree, &mut Lent::new(tree.len()));
        let line = "refused 14 0 units 0 read 0 written 0 number 0";
        assert_eq!(ran.to_string(), line);
    }
}
