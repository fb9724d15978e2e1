use super::*;

/// "The runs test 13 before tree or fuel."; "A run refused before its first
/// instruction or expression answers 0 in every count."
#[test]
fn work_space_too_short() {
    let short = [
        (0, 0),
        (VALUE_WORDS - 1, RETURN_WORDS),
        (VALUE_WORDS, RETURN_WORDS - 1),
        (VALUE_WORDS - 1, RETURN_WORDS - 1),
        (0, RETURN_WORDS),
        (VALUE_WORDS, 0),
        (usize::MAX, RETURN_WORDS - 1),
        (VALUE_WORDS - 1, usize::MAX),
    ];
    for known in known::all() {
        for (values, returns) in short {
            for fuel in [0, 1, known.case.fuel, u64::MAX] {
                refused_13_with(&known.case.with_fuel(fuel), values, returns);
            }
        }
    }
}

/// 13 in both ways to run, every count 0 and the output untouched.
fn refused_13_with(case: &TestCase, values: usize, returns: usize) {
    let (code, input, fuel) = (&case.code, &case.input, case.fuel);
    let mut output = vec![FILLER; case.output];
    let ran = perform(code, input, fuel, &mut output, values, returns);
    let refusal = Refusal {
        number: 13,
        position: 0,
    };
    assert_eq!(ran.refusal, Some(refusal));
    let counts = (ran.units, ran.read, ran.written, ran.number);
    assert_eq!(counts, (0, 0, 0, 0));
    let (same, trace) = perform_traced(code, input, fuel, &mut output, values, returns);
    assert_eq!(same, ran);
    let mark = Mark::alone(Cause::WorkTooShort);
    assert_eq!(trace.stop, Stop::plain(mark));
    assert_eq!(trace.addresses.len() + trace.words + trace.open, 0);
    assert!(output.iter().all(|&byte| byte == FILLER));
}

/// With more work space there are no more words and calls.
#[test]
fn work_space_longer() {
    for known in known::all() {
        for (values, returns) in [
            (VALUE_WORDS + 1, RETURN_WORDS + 2),
            (usize::MAX, usize::MAX),
        ] {
            let mut output = vec![FILLER; known.case.output];
            let (code, input) = (&known.case.code, &known.case.input);
            let ran = perform(code, input, known.case.fuel, &mut output, values, returns);
            assert_eq!(ran, known.answer, "{}", known.name);
            assert_eq!(output, known.bytes, "{}", known.name);
        }
    }
}
