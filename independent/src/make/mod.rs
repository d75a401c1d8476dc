//! Random models, second tables, files, run buffers and hints for tests and
//! comparisons, good and damaged.  Everything is a function of the random generator.
//!
//! * `model`: what a model is.
//! * `sets`: random sets.
//! * `models`: random models, over the `shapes` that their moves take.
//! * `seconds`: second tables that disagree.
//! * `files`: random files.
//! * `runs`: random runs and run buffers; `damaged_runs`: those spoiled.
//! * `hints`: random hints and budgets.

mod damaged_runs;
mod files;
mod hints;
mod model;
mod models;
mod runs;
mod seconds;
mod sets;
mod shapes;

pub use damaged_runs::damaged_run;
pub use files::{any_file, damaged_file};
pub use hints::{any_budget, any_hint, any_hints, good_hints};
pub use model::Model;
pub use models::{any_file_model, any_model, any_n, chain, damaged_model, model_of, small_model};
pub use runs::{any_allowed, any_built_run, any_good_run, any_reached_run, any_run_buffer};
pub use seconds::disagreeing_second;
pub use sets::{any_member, any_words, some_of, some_within};
