//! The order checker beside the reference implementation.

mod answers;
mod bodies;
mod generated;
mod known;
mod rows;

use hogvax::Refused;
use reference::{lay_out, order, shown, Program, Refusal};

type Answer = Result<(), Refused>;

/// A call of the library: as a safe function and with lent slots. Beside them
/// the reference's.
struct Call {
    safe: fn(&[u8]) -> Answer,
    into: fn(&[u8], &mut [u64]) -> u32,
    reference: fn(&[u8]) -> Result<(), Refusal>,
}

const CHECK: Call = Call {
    safe: hogvax::check,
    into: hogvax::check_into,
    reference: reference::check,
};

const CHECK_RECORDS: Call = Call {
    safe: hogvax::check_records,
    into: hogvax::check_records_into,
    reference: reference::check_records,
};

fn told(refusal: Refusal) -> Refused {
    Refused {
        number: refusal.number.into(),
        position: refusal.position as u64,
    }
}

fn refused(number: u8, position: usize) -> Answer {
    Err(told(Refusal { number, position }))
}

/// 0 where the program passes, or the refusal's number.
fn number(answer: Answer) -> usize {
    answer.map_or_else(|refused| refused.number as usize, |()| 0)
}

impl Call {
    /// The call gives the reference's answer.
    fn answer(&self, input: &[u8]) -> Answer {
        let answer = (self.reference)(input).map_err(told);
        assert_eq!((self.safe)(input), answer, "{}", shown(input));
        answer
    }
}

/// Both calls give the reference's answer for records and for their file.
fn answer(records: &[u8]) -> Answer {
    let answer = CHECK_RECORDS.answer(records);
    assert_eq!(CHECK.answer(&lay_out(records)), answer);
    answer
}

/// As `answer`, for a program. Where it passes pass one, the reference's two
/// ways to perform pass two agree.
fn answer_program(program: &Program) -> Answer {
    let answer = answer(&program.records());
    if ![8, 9, 10].contains(&number(answer)) {
        assert!(order::ways_agree(program), "{:?}", program.functions);
    }
    answer
}
