//! Reference implementation for tests: trees, their tokens, the tree reader,
//! programs, their records and program files, the order checker, the
//! translator, the stream run, the runner, the source evaluation and the
//! source run, with generators of random inputs.

#![forbid(unsafe_code)]

pub mod evaluate;
pub mod generate;
pub mod machine;
mod message;
pub mod order;
pub mod program;
pub mod random;
pub mod run;
pub mod source;
pub mod sum;
pub mod translate;
pub mod tree;

pub use evaluate::{evaluate, Ended, Evaluation, Value};
pub use machine::{
    assemble, instruction_at, perform, perform_traced, Cause, Instruction, Mark, Ran, Stop,
    TestCase, Trace,
};
pub use message::shown;
pub use order::{check, check_program, check_records, Fault, Found};
pub use program::{
    kind, lay_out, lay_out_runs, mend_checks, part_count, read_file, read_file_into, write_file,
    write_file_into, Expr, Function, Program, Record,
};
pub use program::{BLOCK_BYTES, BLOCK_LIMIT, BLOCK_RECORDS, RECORD_BYTES};
pub use program::{FUNCTION_LIMIT, NODE_LIMIT, PARAMETER_LIMIT};
pub use random::Random;
pub use run::{run, RunCase};
pub use source::{source, SourceCase, Sourced};
pub use sum::{exact_sum, EndSums, SUM_OUT_OF_RANGE};
pub use translate::{listing, translate, translate_into, translate_program};
pub use tree::{
    read_tree, tree_bytes, tree_end, tree_measures, tree_refusal, Measures, Prefix, Refusal, Token,
    Tree, DEPTH_LIMIT, INPUT_ENDED, LEAF_TAG, NODE_TAG, NOT_A_TAG, TOO_DEEP,
};
