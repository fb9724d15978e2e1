//! The known evaluations as runs: with as much fuel as the column "units" sums
//! up to and 1 more, and with 1 less.

use crate::evaluate::known::{in_order, Known as Evaluated};
use crate::evaluate::{Ended, Evaluation};
use crate::machine::Ran;
use crate::program::lay_out;
use crate::tree::Refusal;

use super::{with_answer, Known, RunCase, CODE_BYTES};

/// For each that ends two runs: "function 0's own return adds 1 unit", and
/// without that unit it is 14, all being read and written.
pub fn runs() -> Vec<Known> {
    let cases = in_order().into_iter();
    cases
        .flat_map(|known| match &known.answer {
            Evaluation::Ended(ended) => {
                let enough = run(&known, ended, ended.units + 1);
                vec![enough, run(&known, ended, ended.units)]
            }
            _ => vec![],
        })
        .collect()
}

fn run(known: &Evaluated, ended: &Ended, fuel: u64) -> Known {
    let tokens = known.tree.tokens();
    let file = lay_out(&known.program.records());
    let wrote = ended.value.bytes();
    let case = RunCase::new(&file, &tokens, fuel, wrote.len(), CODE_BYTES);
    let position = tokens.len();
    let short = fuel == ended.units;
    let answer = Ran {
        refusal: short.then_some(Refusal {
            number: 14,
            position,
        }),
        units: fuel,
        read: position,
        written: wrote.len(),
        number: if short { 0 } else { ended.value.number() },
    };
    let name = format!("{}, evaluated, fuel {fuel}", known.name);
    with_answer(&name, case, &known.program, answer, &wrote)
}
