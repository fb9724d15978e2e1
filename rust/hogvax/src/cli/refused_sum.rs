//! What is said of a run that is refused because a sum is out of range.

use hogvax::{Ran, Refused, Sourced};

use crate::exit_status::Trouble;
use crate::given_program::Program;
use crate::input::Opening;
use crate::output;
use crate::progress::Progress;

/// The refusal of a sum that is out of range.
const OUT_OF_RANGE: u32 = 21;

fn is_out_of_range(refused: Option<Refused>) -> bool {
    refused.is_some_and(|refused| refused.number == OUT_OF_RANGE)
}

/// After a source run: which Add it is, and of which numbers.
pub fn in_source_run(sourced: &Sourced, program: &Program, input: &Opening) -> Result<(), Trouble> {
    if !is_out_of_range(sourced.refused) {
        return Ok(());
    }
    tell(explained(program, input, sourced))
}

/// After a stream run of a program: the same, and how far the input was read. The
/// answer says nothing of records, so the source run is made, over the bytes that
/// were read in. It comes to the same sum, having as much to do as the stream run
/// had; but it needs a whole tree, which is not too deep.
pub fn in_stream_run(ran: &Ran, program: &Program, input: &Opening) -> Result<(), Trouble> {
    if !is_out_of_range(ran.refused) {
        return Ok(());
    }
    let Ok(file) = &program.file else {
        return Ok(());
    };
    let looking = Progress::of("looking for the sum");
    let sourced = hogvax::source(file, input.bytes(), u64::MAX, &mut []);
    drop(looking);
    if !is_out_of_range(sourced.refused) {
        return tell(Some(without_its_add(ran, input, sourced.refused)));
    }
    let (read, explained) = (ran.read, explained(program, input, &sourced));
    tell(explained.map(|lines| format!("{lines}\n  bytes read by then: {read}")))
}

/// After a run of code, which has no records.
pub fn in_code(ran: &Ran, _: &Program, input: &Opening) -> Result<(), Trouble> {
    match is_out_of_range(ran.refused) {
        true => tell(Some(notice(ran, input))),
        false => Ok(()),
    }
}

fn tell(lines: Option<String>) -> Result<(), Trouble> {
    lines.map_or(Ok(()), |lines| output::tell(&lines))
}

fn explained(program: &Program, input: &Opening, sourced: &Sourced) -> Option<String> {
    let _looking = Progress::of("looking for the numbers");
    program.explained_sum(input.bytes(), sourced)
}

/// What is said where the source run does not come to the sum: what it is refused
/// with, over the bytes that were read in.
fn without_its_add(ran: &Ran, input: &Opening, refused: Option<Refused>) -> String {
    let notice = notice(ran, input);
    let why = refused.map_or(String::new(), |refused| {
        let Refused { number, position } = refused;
        format!(": the bytes read in are refused as a tree, with {number} at {position}")
    });
    format!("{notice}\n  its Add is not named{why}; 'hogvax source' tries the whole input")
}

/// What a stream run itself says.
fn notice(ran: &Ran, input: &Opening) -> String {
    let (read, name) = (ran.read, input.name());
    format!(
        "notice: a sum lies outside -2147483648 to 2147483647; \
         bytes of {name} read by then: {read}"
    )
}
