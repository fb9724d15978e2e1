use super::*;
use crate::machine::{Cause, Mark, Trace};

mod drafts;
mod fuels;
mod promises;
mod reached;

/// So many cases of one kind.
const OF_A_KIND: usize = if cfg!(debug_assertions) { 300 } else { 1_000 };

/// Cases of one kind.
fn cases(seed: u64, kind: fn(&mut Random) -> TestCase) -> Vec<TestCase> {
    let mut random = Random::new(seed);
    (0..OF_A_KIND).map(|_| kind(&mut random)).collect()
}

/// Their traces.
fn traces(cases: &[TestCase]) -> Vec<Trace> {
    cases.iter().map(|case| case.perform_traced().1).collect()
}

/// Whether one of the runs stops at that mark, hiding that other one.
fn seen(traces: &[Trace], mark: Mark, hidden: Option<Mark>) -> bool {
    let mut stops = traces.iter().map(|trace| trace.stop);
    stops.any(|stop| stop.mark == mark && stop.hidden == hidden)
}

/// Whether one of the runs stops for that cause.
fn cause_seen(traces: &[Trace], cause: Cause) -> bool {
    traces.iter().any(|trace| trace.stop.mark.cause == cause)
}
