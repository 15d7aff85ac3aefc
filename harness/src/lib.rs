//! Tests and benchmark of the engine behind its C interface (`include/solver.h`).
//!
//! - `ffi`: the engine's operations.
//! - `reference`: an unrelated implementation of document 01, which the tests compare the engine with.
//! - `random`: models, files, bounds and trees from a seed.
//! - `lending`: what the tests lend to operations, what these make beside what the reference makes, and which answers came up.
//! - `words`: refusals in words, as the scripts and the join program say them.
//! - `scripts`: running the programs' scripts.
//! - `baseline`: the routes, the bench page and joining in Rust, which the benchmark compares the engine's speed with.

mod answer;
pub mod baseline;
pub mod ffi;
pub mod lending;
pub mod random;
pub mod reference;
pub mod scripts;
pub mod words;

pub use answer::Answer;

/// The ceiling of the bench page, and of both judgings in the judging program.
pub const PROGRAM_CEILING: u64 = 1_000_000;

/// The stack that every call of the engine fits: `SOLVER_STACK` of the header.
pub const CALL_STACK: usize = 32 << 10;

/// Makes a call on a thread with that stack.
pub fn on_a_small_stack<T: Send + 'static>(call: impl FnOnce() -> T + Send + 'static) -> T {
    let thread = std::thread::Builder::new().stack_size(CALL_STACK).spawn(call);
    thread.expect("a thread").join().expect("a run")
}

/// The path of a file of the repository.
pub fn root(path: &str) -> String {
    format!("{}/../{path}", env!("CARGO_MANIFEST_DIR"))
}
