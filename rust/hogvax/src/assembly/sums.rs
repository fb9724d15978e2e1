//! Which sum is out of range, in words.

use crate::{Refused, Sourced};

use super::explain::{general, Detail, Explanation};
use super::records::Record;
use super::wording::{part_name, quoted};

mod evaluation;

use evaluation::{evaluate, Program, Sum};

/// The refusal of a sum that is out of range.
const OUT_OF_RANGE: u32 = 21;

/// What can be said of every sum that is out of range.
const RANGE: &str = "numbers are -2147483648 to 2147483647";

/// Why the source run of these records on the tree that begins `input` is
/// refused with 21, if it answers so: which Add it is, and of which two numbers.
/// The answer has the record alone. The numbers are found by evaluating the
/// program once more, for as many expressions as the answer says were begun;
/// where that does not come to the same sum, they are left out.
///
/// For an answer that is no refusal with 21 it is a general sentence.
///
/// ```
/// let text = b"\
/// function 0 takes tree 0 gives number
///   Case 0
///     Var 0
///     Add
///       Call 0 on 1
///       Call 0 on 2
/// ";
/// let records = hogvax::assembly::read(text).unwrap().records;
/// let file = hogvax::pack(&records).unwrap();
/// // Leaves 2147483647 and 1 under a node.
/// let input = [2, 1, 0xff, 0xff, 0xff, 0x7f, 1, 1, 0, 0, 0];
///
/// let sourced = hogvax::source(&file, &input, 1_000, &mut []);
/// let explanation = hogvax::assembly::explain_sum(&records, &input, &sourced);
/// assert_eq!(explanation.record, 4);
/// let message = "the sum of 2147483647 and 1 is 2147483648, which is out of range";
/// assert_eq!(explanation.message, message);
/// let first = &explanation.details[1];
/// assert_eq!(first.text, "2147483647: the first number, 'Call 0 on 1'");
/// assert_eq!(first.record, Some(5));
/// ```
pub fn explain_sum(records: &[u8], input: &[u8], sourced: &Sourced) -> Explanation {
    let refused = sourced.refused.unwrap_or(Refused {
        number: 0,
        position: 0,
    });
    let mut explanation = general(refused);
    if refused.number != OUT_OF_RANGE {
        return explanation;
    }
    explanation.details.push(Detail::new(RANGE));
    let program = Program::new(records);
    let sum = evaluate(&program, input, sourced.begun);
    if let Some(sum) = sum.filter(|sum| sum.record == explanation.record) {
        explanation.message = message(&sum);
        explanation.details.extend(parts(&program, &sum));
    }
    explanation
}

fn message(sum: &Sum) -> String {
    let Sum { first, second, .. } = *sum;
    let exact = i64::from(first) + i64::from(second);
    format!("the sum of {first} and {second} is {exact}, which is out of range")
}

/// What the two numbers are.
fn parts(program: &Program, sum: &Sum) -> Vec<Detail> {
    let numbers = [sum.first, sum.second].into_iter().enumerate();
    let detail = |(part, number)| {
        let whole: Record = program.record(sum.record)?;
        let own = program.part(sum.record, part)?;
        let (name, record) = (part_name(whole, part), quoted(program.record(own)?));
        Some(Detail::of(own, format!("{number}: the {name}, {record}")))
    };
    numbers.filter_map(detail).collect()
}
