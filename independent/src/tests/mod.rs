//! Unit tests.

mod files;
mod kept_runs;
mod naive;
mod refusals;
mod second;
mod second_refusals;
mod sets;
mod slips;
mod small_tables;
mod turns;
mod verdict;

use crate::make::Model;
use crate::run_buffer::RUN_WORDS;
use crate::{fresh, run, RunAnswer, Set};

/// File B of document 01.
pub const FILE_B: [u8; 31] = [
    0x03, 0x00, 0xAA, 0x00, 0x00, 0xB3, 0x00, 0x00, 0x4D, 0xFF, 0x01, 0x01, 0x00, 0x00, 0x00, 0x02,
    0x00, 0x00, 0x00, 0x01, 0x00, 0x02, 0x00, 0x00, 0x00, 0x01, 0x00, 0x01, 0x00, 0x02, 0x00,
];

/// What fills the lent set and walk before a call, to see what is written.
pub const MARK: u64 = 0xDEAD_BEEF_0BAD_F00D;
pub const WALK_MARK: u16 = 0xABCD;

/// All that a run answers and leaves behind.
#[derive(Clone, PartialEq, Eq, Debug)]
pub struct Ran {
    pub answer: RunAnswer,
    pub held: Vec<u64>,
    pub set: [u64; 4],
    pub walk: [u16; 256],
}

pub fn fresh_run(n: u16) -> Vec<u64> {
    let mut held = vec![MARK; RUN_WORDS];
    assert_eq!(fresh(n, &mut held), 0);
    held
}

/// Run the model from the given run buffer.
pub fn ran_from(model: &Model, held: &[u64], hints: &[u64], budget: u64) -> Ran {
    let mut held = held.to_vec();
    let mut set = [MARK; 4];
    let mut walk = [WALK_MARK; 256];
    let answer = run(
        &model.moves,
        model.n,
        model.i,
        model.p,
        &mut held,
        hints,
        budget,
        &mut set,
        &mut walk,
    );
    Ran {
        answer,
        held,
        set,
        walk,
    }
}

/// Run the model from fresh.
pub fn ran(model: &Model, hints: &[u64], budget: u64) -> Ran {
    ran_from(model, &fresh_run(model.n), hints, budget)
}

/// Table A of document 01: "N = 3, moves 0 to 1 and 1 to 0, I {0}, P {0,1}".
pub fn model_a() -> Model {
    Model::of(3, &[(0, 1), (1, 0)], &[0], &[0, 1])
}

/// Table B of document 01, as read from file B.
pub fn model_b() -> Model {
    let mut model = Model::blank(3);
    let answer = crate::read(
        &FILE_B,
        &mut model.moves,
        &mut model.angles,
        &mut model.modes,
    )
    .unwrap();
    model.n = answer.n;
    model.i = answer.starts;
    model.p = answer.safe;
    model
}

pub fn set_of(states: &[usize]) -> Set {
    Set::of(states)
}
