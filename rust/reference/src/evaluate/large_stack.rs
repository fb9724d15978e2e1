//! A thread whose stack is as large as a deep recursion needs.

use std::thread;

/// Enough for one expression in another and what is called for it: more
/// without optimisation.
const BYTES_EACH: usize = if cfg!(debug_assertions) { 3_072 } else { 768 };

/// Enough for whatever else the thread does.
const BYTES_BESIDES: usize = 1 << 20;

/// Does the work on a thread with a stack for so many expressions nested in
/// each other.
pub fn with_depth<T: Send>(depth: usize, work: impl FnOnce() -> T + Send) -> T {
    let bytes = depth
        .saturating_mul(BYTES_EACH)
        .saturating_add(BYTES_BESIDES);
    thread::scope(|scope| {
        let thread = thread::Builder::new().stack_size(bytes);
        let thread = thread.spawn_scoped(scope, work).expect("a thread");
        thread.join().expect("the work is done")
    })
}
