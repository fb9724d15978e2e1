//! What is promised: the contracts and the statements from which the list of what must be believed
//! is computed.

/// A file of Rattle, and the functions in it whose contracts are promises. No name is all of them.
pub struct Contracts {
    pub place: &'static str,
    pub functions: &'static [&'static str],
    pub what: &'static str,
}

/// The program's `main` has no contract of its own: what it prints is what `put_listing` gives.
pub const CONTRACTS: [Contracts; 3] = [
    Contracts {
        place: "hogvax_c/src/lib",
        functions: &[],
        what: "the exported calls",
    },
    Contracts {
        place: "hogvax_view/src/lib",
        functions: &[],
        what: "the tree reader's calls, exported alone",
    },
    Contracts {
        place: "listing/src/main",
        functions: &["main", "put_listing"],
        what: "the listing program",
    },
];

/// The statements of the demands: file and name.
pub const STATEMENTS: [(&str, &str); 12] = [
    ("formats/specs/Reader", "TreeReader"),
    ("formats/specs/Measures", "TreeMeasures"),
    ("formats/specs/ProgramFiles", "ProgramFiles"),
    ("rules/specs/OrderChecker", "OrderChecker"),
    ("meaning/specs/StreamRun", "StreamRun"),
    ("meaning/specs/Meaning", "Meaning"),
    ("meaning/specs/SourceMeasures", "SourceMeasures"),
    ("translation/specs/Demand3", "Demand3Holds"),
    ("translation/specs/EveryRun", "EveryRunHolds"),
    ("translation/specs/OutOfRange", "OutOfRangeHolds"),
    ("translation/specs/CodeLimits", "CodeLimitsHold"),
    ("translation/specs/ThisCall", "AllRunnable"),
];

/// Statements of definitions, that they say what they seem to: file and name.
pub const OF_DEFINITIONS: [(&str, &str); 4] = [
    ("translation/specs/Listing", "NeverShort"),
    ("formats/specs/Written", "Wrote"),
    ("formats/specs/Arithmetic", "ResultsStand"),
    ("run_answers/specs/RunSlots", "Extends"),
];
