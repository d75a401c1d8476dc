//! A plain program written from document 01 ("What to make and its exact
//! rules"), the published slide "AdjointPDR" of document 001 and the requests
//! of document 02 that have landed: 1/12 ("Who leads here?") and 2/12 ("There
//! and back should cancel").  It exists to be compared, answer for answer and
//! byte for byte, with another implementation.  It shares the decisions on
//! points that the documents leave open (what a refused answer holds, say), or
//! the two could not be compared; every other line is a second design.
//!
//! * `set`: a set of states, `full`, `count`, `smallest`.
//! * `table`: the table, when it is sound, f and g (`forward`, `backward`).
//! * `second`: the second table, `second`, `into`, `add`, `remove` and g once
//!   more (`backward_by_second`).
//! * `rules`: a run in the published notation (x ‖ y)_{n,k} and its rules.
//! * `run_buffer`: the run buffer and its entry check.
//! * `search`: the calls `fresh`, `single_rule` and `run`.
//! * `file`: `read` and `write`.
//! * `angle`: `turn`.
//! * `list`: `listing`.
//!
//! For tests and comparison only:
//!
//! * `random`: SplitMix64.
//! * `make`: random models, second tables, files, run buffers and hints, good
//!   and damaged.
//! * `brute`: breadth-first reachability that uses nothing of the above.

pub mod angle;
pub mod brute;
pub mod file;
pub mod list;
pub mod make;
pub mod random;
pub mod refusal;
pub mod rules;
pub mod run_buffer;
pub mod search;
pub mod second;
pub mod set;
pub mod table;

pub use angle::turn;
pub use file::{read, write, Read};
pub use list::listing;
pub use rules::Rule;
pub use search::{fresh, run, single_rule, Outcome, RunAnswer};
pub use second::{add, backward_by_second, into, remove, second};
pub use set::{count, full, smallest, Set};
pub use table::{backward, forward};

#[cfg(test)]
mod tests;
