//! The calls on a run: `fresh`, `single_rule` and `run`.

use crate::refusal::{CONCLUDED, ENTRY_CHECK, NOT_ALLOWED, NO_ROOM, WRONG_LENGTH};
use crate::rules::{Conclusion, Rule, Run};
use crate::run_buffer::{put, take, MOST_SETS, RUN_WORDS};
use crate::set::{number_of_states, Set};
use crate::table::{Table, MOVE_WORDS};
use std::slice::ChunksExact;

pub const SET_WORDS: usize = 4;
pub const WALK_NUMBERS: usize = 256;

/// How a run ended.
#[derive(Clone, Copy, PartialEq, Eq, Debug)]
pub enum Outcome {
    /// Safe, with the smallest j; the set x_j is in the lent four words.
    Safe(u16),
    /// Reached, with the states in the walk; the walk is in the lent numbers.
    Reached(u16),
    Unfinished,
    Refused(u8),
}

/// The complete answer of a run.  A refused run counts 0, 0 and 0.
#[derive(Clone, Copy, PartialEq, Eq, Debug)]
pub struct RunAnswer {
    pub outcome: Outcome,
    pub rules_fired: u64,
    pub hints_taken: u64,
    pub hints_used: u64,
}

impl RunAnswer {
    fn refused(number: u8) -> RunAnswer {
        RunAnswer {
            outcome: Outcome::Refused(number),
            rules_fired: 0,
            hints_taken: 0,
            hints_used: 0,
        }
    }
}

/// Make the run buffer fresh.  0, or the refusal 7 or 2, in that order.
pub fn fresh(n: u16, run: &mut [u64]) -> u8 {
    if run.len() != RUN_WORDS {
        return WRONG_LENGTH;
    }
    match number_of_states(n) {
        Err(number) => number,
        Ok(n) => {
            run.copy_from_slice(&put(&Run::fresh(n)));
            0
        }
    }
}

/// Is an Unfold due for which the run buffer has no room?
fn no_room(held: &Run, rule: Rule) -> bool {
    rule == Rule::Unfold && held.n() == MOST_SETS
}

/// Fire one rule with the proposed set.  Refusals 7, 2, 13, 8, then 10, 11, 9.
pub fn single_rule(
    moves: &[u64],
    n: u16,
    i: Set,
    p: Set,
    run: &mut [u64],
    proposal: Set,
) -> Result<Rule, u8> {
    if moves.len() != MOVE_WORDS || run.len() != RUN_WORDS {
        return Err(WRONG_LENGTH);
    }
    let table = Table::take(moves, n, i, p)?;
    let mut held = take(run, &table).ok_or(ENTRY_CHECK)?;
    if held.conclusion(&table).is_some() {
        return Err(CONCLUDED);
    }
    let rule = held.rule_due(&table);
    if no_room(&held, rule) {
        return Err(NO_ROOM);
    }
    // "Unfold ignores it."
    if rule != Rule::Unfold && !held.allowed(&table, rule, proposal) {
        return Err(NOT_ALLOWED);
    }
    held.fire(&table, rule, proposal);
    run.copy_from_slice(&put(&held));
    Ok(rule)
}

/// Run with hints and a budget.  Refusals 7, 2, 13, 8; 11 when that Unfold
/// comes.
#[allow(clippy::too_many_arguments)]
pub fn run(
    moves: &[u64],
    n: u16,
    i: Set,
    p: Set,
    run: &mut [u64],
    hints: &[u64],
    budget: u64,
    set: &mut [u64],
    walk: &mut [u16],
) -> RunAnswer {
    if moves.len() != MOVE_WORDS
        || run.len() != RUN_WORDS
        || hints.len() % 4 != 0
        || set.len() != SET_WORDS
        || walk.len() != WALK_NUMBERS
    {
        return RunAnswer::refused(WRONG_LENGTH);
    }
    let table = match Table::take(moves, n, i, p) {
        Ok(table) => table,
        Err(number) => return RunAnswer::refused(number),
    };
    let Some(held) = take(run, &table) else {
        return RunAnswer::refused(ENTRY_CHECK);
    };
    // All work is done on `search`; the lent buffers are written at the end.
    let mut search = Search::begin(&table, held, hints);
    let conclusion = match search.fire_rules(budget) {
        Ok(conclusion) => conclusion,
        Err(number) => return RunAnswer::refused(number),
    };
    let outcome = search.write_reason(conclusion, set, walk);
    run.copy_from_slice(&put(&search.held));
    search.answer(outcome)
}

/// A run under way, the hints left and the numbers it reports.
struct Search<'a> {
    table: &'a Table,
    held: Run,
    hints_left: ChunksExact<'a, u64>,
    rules_fired: u64,
    hints_taken: u64,
    hints_used: u64,
}

impl<'a> Search<'a> {
    fn begin(table: &'a Table, held: Run, hints: &'a [u64]) -> Search<'a> {
        Search {
            table,
            held,
            hints_left: hints.chunks_exact(4),
            rules_fired: 0,
            hints_taken: 0,
            hints_used: 0,
        }
    }

    /// Fire rules up to the conclusion; `None` when the budget ends first.
    fn fire_rules(&mut self, budget: u64) -> Result<Option<Conclusion>, u8> {
        loop {
            // "The conclusion is tested before the budget".
            if let Some(conclusion) = self.held.conclusion(self.table) {
                return Ok(Some(conclusion));
            }
            if self.rules_fired == budget {
                return Ok(None);
            }
            let rule = self.held.rule_due(self.table);
            if no_room(&self.held, rule) {
                return Err(NO_ROOM);
            }
            let choice = self.choice(rule);
            self.held.fire(self.table, rule, choice);
            self.rules_fired += 1;
        }
    }

    /// The next hint if the rule due allows it, else the house choice.
    fn choice(&mut self, rule: Rule) -> Set {
        // Unfold chooses nothing and takes no hint.
        let Some(house) = self.held.house_choice(self.table, rule) else {
            return Set::EMPTY;
        };
        let Some(words) = self.hints_left.next() else {
            return house;
        };
        let hint = Set::from_words(words);
        self.hints_taken += 1;
        if !self.held.allowed(self.table, rule, hint) {
            return house;
        }
        self.hints_used += 1;
        hint
    }

    /// The set of a safe run or the walk of a reached one, to its lent buffer.
    fn write_reason(
        &self,
        conclusion: Option<Conclusion>,
        set: &mut [u64],
        walk: &mut [u16],
    ) -> Outcome {
        match conclusion {
            None => Outcome::Unfinished,
            Some(Conclusion::Safe(j)) => {
                set.copy_from_slice(&self.held.x[j].0);
                Outcome::Safe(j as u16)
            }
            Some(Conclusion::Reached) => {
                let states = self.held.walk(self.table);
                walk[..states.len()].copy_from_slice(&states);
                Outcome::Reached(states.len() as u16)
            }
        }
    }

    fn answer(&self, outcome: Outcome) -> RunAnswer {
        RunAnswer {
            outcome,
            rules_fired: self.rules_fired,
            hints_taken: self.hints_taken,
            hints_used: self.hints_used,
        }
    }
}
