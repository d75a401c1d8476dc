//! Fresh run buffers and single rules.

use super::runs::ask;
use crate::calls::runs;
use crate::given::{any_n, crowded, one_member_changed, other_length, proposal, Start};
use crate::lent::any;
use crate::{Agreed, Case};
use independent::run_buffer::{take, RUN_WORDS};

pub fn fresh(case: &mut Case) -> Agreed<()> {
    let random = &mut case.random;
    let n = match random.below(4) {
        0 => random.one_of(&[0, 257, 258, 512, 65535]),
        1 => random.word() as u16,
        _ => any_n(random) as u16,
    };
    let mut words = any(random, RUN_WORDS);
    if random.chance(1, 3) {
        other_length(random, &mut words);
    }
    runs::fresh(case, n, &words)
}

pub fn single(case: &mut Case) -> Agreed<()> {
    let random = &mut case.random;
    let mut start = Start::any(random);
    let proposal = proposal(random, &start.model.table(), &start.held);
    if random.chance(1, 3) {
        start.spoil(random);
    }
    runs::single(case, &start.model, &start.words, proposal).map(drop)
}

/// Single rules, one after the other on what the last one left, to the first after the end.
pub fn singles(case: &mut Case) -> Agreed<()> {
    let start = Start::any(&mut case.random);
    let table = start.model.table();
    let mut words = start.words;
    for _ in 0..case.random.between(2, 12) {
        let held = take(&words, &table).expect("a run buffer that passes the entry check");
        let proposal = proposal(&mut case.random, &table, &held);
        words = runs::single(case, &start.model, &words, proposal)?;
        if held.conclusion(&table).is_some() {
            break;
        }
    }
    Ok(())
}

/// A run buffer that may fail the entry check in one condition alone, several times.
pub fn entry_check(case: &mut Case) -> Agreed<()> {
    let start = crowded(&mut case.random);
    let table = start.model.table();
    for _ in 0..8 {
        let words = one_member_changed(&mut case.random, &start);
        let proposal = proposal(&mut case.random, &table, &start.held);
        runs::single(case, &start.model, &words, proposal)?;
    }
    let mut asked = ask(&mut case.random, &start);
    asked.run = one_member_changed(&mut case.random, &start);
    asked.budget = 100;
    runs::run(case, &asked).map(drop)
}
