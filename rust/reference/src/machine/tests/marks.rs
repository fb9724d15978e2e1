use super::*;
use opcode::*;

/// Every cause with the opcodes where it is reported, none where it is reported
/// without one; 13 aside.
const TOLD: [(Cause, &[u8]); 19] = [
    (Cause::EndedWithNone, &[RETURN]),
    (Cause::EndedWithOne, &[RETURN]),
    (Cause::NoFuel, &[]),
    (Cause::FuelUsedUp, &[]),
    (Cause::InputEnded, &[READ_TAG, READ_NUMBER]),
    (Cause::LabelNotWhole, &[READ_NUMBER]),
    (Cause::NotATag, &[READ_TAG]),
    (Cause::OutputFull, &[LEAF_TAG, NODE_TAG, WRITE_NUMBER]),
    (Cause::OutputShort, &[WRITE_NUMBER]),
    (Cause::CallsOpen, &[CALL]),
    (Cause::PastTheEnd, &[]),
    (Cause::InstructionNotWhole, &[]),
    (Cause::AddressTooHigh, &[]),
    (Cause::NotAnOpcode, &[]),
    (Cause::ReturnByte, &[RETURN]),
    (Cause::MissingWords, &TAKES_WORDS),
    (Cause::WordsBelowBase, &TAKES_WORDS),
    (Cause::SurplusWords, &[PUSH, GET, READ_NUMBER]),
    (Cause::SumOutOfRange, &[ADD]),
];

/// The opcodes that need words.
const TAKES_WORDS: [u8; 8] = [GET, ADD, IFNOT, SLIDE, DROP, WRITE_NUMBER, CALL, RETURN];

fn told() -> BTreeSet<Mark> {
    let marks = TOLD.iter().flat_map(|&(cause, opcodes)| match opcodes {
        [] => vec![Mark::alone(cause)],
        _ => opcodes.iter().map(|&one| Mark::at(one, cause)).collect(),
    });
    marks.collect()
}

#[test]
fn known_codes_stop_at_every_mark_and_no_other() {
    let stops = known::all().into_iter().map(|known| known.stop.mark);
    assert_eq!(stops.collect::<BTreeSet<Mark>>(), told());
}

/// 19 hides each of 15, 17, 18 and 21 where both can stand at one instruction.
#[test]
fn known_codes_hide_behind_19_all_that_can_be() {
    let behind = |mark: Mark| mark.number() == Some(19);
    let stops = known::all().into_iter().map(|known| known.stop);
    let pairs = stops.filter(|stop| behind(stop.mark) && stop.hidden.is_some());
    let found: BTreeSet<(Cause, Option<Mark>)> =
        pairs.map(|stop| (stop.mark.cause, stop.hidden)).collect();
    let expected = [
        (Cause::MissingWords, WRITE_NUMBER, Cause::OutputFull),
        (Cause::MissingWords, WRITE_NUMBER, Cause::OutputShort),
        (Cause::MissingWords, CALL, Cause::CallsOpen),
        (Cause::WordsBelowBase, WRITE_NUMBER, Cause::OutputFull),
        (Cause::WordsBelowBase, WRITE_NUMBER, Cause::OutputShort),
        (Cause::WordsBelowBase, CALL, Cause::CallsOpen),
        (Cause::WordsBelowBase, ADD, Cause::SumOutOfRange),
        (Cause::SurplusWords, READ_NUMBER, Cause::InputEnded),
        (Cause::SurplusWords, READ_NUMBER, Cause::LabelNotWhole),
    ];
    let expected = expected.map(|(cause, at, hidden)| (cause, Some(Mark::at(at, hidden))));
    assert_eq!(found, BTreeSet::from(expected));
}

/// Random codes stop at no other mark.
#[test]
fn random_codes_stop_at_no_other_mark() {
    let mut random = Random::new(7);
    let marks = told();
    for _ in 0..20_000 {
        let code = (0..80).map(|_| random.below(16) as u8);
        let case = TestCase {
            code: code.collect(),
            input: (0..9).map(|_| random.below(4) as u8).collect(),
            fuel: 200,
            output: random.below(9),
        };
        let (_, trace, _) = ran(&case);
        assert!(marks.contains(&trace.stop.mark), "{case:?}");
        let hidden = trace.stop.hidden;
        assert!(hidden.is_none_or(|mark| marks.contains(&mark)), "{case:?}");
    }
}
