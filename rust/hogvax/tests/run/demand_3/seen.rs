//! What came up among the runs.

use std::collections::BTreeMap;

/// What is to come up.
const BRANCHES: [&str; 22] = [
    "program refused",
    "ended with a tree",
    "ended with a number",
    "cut by fuel",
    "cut by the output",
    "too many calls, with a result",
    "too many calls, without a result",
    "a sum out of range",
    "cut by fuel at a sum out of range",
    "nothing read",
    "part read",
    "all read",
    "nothing written",
    "part written",
    "all written",
    "all read and written, and cut by fuel",
    "fuel for all but the last return",
    "fuel for just all",
    "enough fuel below 4n + 1",
    "fuel of 4n + 1",
    "fuel above 4n + 1",
    "just room enough",
];

/// How often each came up.
#[derive(Default)]
pub struct Seen(BTreeMap<&'static str, usize>);

impl Seen {
    /// Counts a branch, if it came up.
    pub fn see(&mut self, branch: &'static str, here: bool) {
        assert!(BRANCHES.contains(&branch), "{branch}");
        if here {
            *self.0.entry(branch).or_default() += 1;
        }
    }

    /// All came up.
    pub fn assert_all(&self) {
        println!("{:?}", self.0);
        for branch in BRANCHES {
            assert!(self.0.contains_key(branch), "never: {branch}");
        }
    }
}
