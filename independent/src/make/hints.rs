//! Random hints and budgets.

use super::runs::any_allowed;
use super::sets::{any_from_n_up, any_words, some_within};
use crate::random::Random;
use crate::rules::Run;
use crate::set::Set;
use crate::table::Table;

/// Hints that the rules allow one after the other from this run: all of
/// them are used.  At most `most` rules are looked ahead.
pub fn good_hints(random: &mut Random, table: &Table, from: &Run, most: usize) -> Vec<u64> {
    let mut held = from.clone();
    let mut hints = Vec::new();
    for _ in 0..most {
        if held.conclusion(table).is_some() {
            break;
        }
        let rule = held.rule_due(table);
        let choice = any_allowed(random, table, &held, rule);
        if let Some(z) = choice {
            hints.extend_from_slice(&z.0);
        }
        held.fire(table, rule, choice.unwrap_or(Set::EMPTY));
    }
    hints
}

/// One hint that may or may not be allowed.
pub fn any_hint(random: &mut Random, table: &Table) -> Set {
    let full = table.full();
    match random.below(10) {
        0 => table.p,
        1 => table.p.join(some_within(random, full)),
        2 => table.i.join(some_within(random, full)),
        3 => table.i,
        4 => full.minus(Set::of(&[random.below(table.n)])),
        5 => table.g(table.p).join(some_within(random, full)),
        6 => some_within(random, full),
        7 => {
            let mut set = some_within(random, full);
            set.insert(any_from_n_up(random, table.n));
            set
        }
        8 => any_words(random),
        _ => any_closed(random, table),
    }
}

/// The starts and some safe states, closed under the moves.
fn any_closed(random: &mut Random, table: &Table) -> Set {
    let mut z = table.i.join(some_within(random, table.p));
    loop {
        let more = z.join(table.f(z));
        if more == z {
            return z;
        }
        z = more;
    }
}

/// Hints of a length that is a multiple of 4: none, good, bad, mixed.
pub fn any_hints(random: &mut Random, table: &Table, from: &Run) -> Vec<u64> {
    let most = random.one_of(&[5, 20, 100, 400]);
    match random.below(6) {
        0 => Vec::new(),
        1 => good_hints(random, table, from, most),
        2 | 3 => spoiled_hints(random, table, from, most),
        4 => repeated_hint(random, table, most),
        _ => unlike_hints(random, table, most),
    }
}

/// Good hints, some of them spoiled.
fn spoiled_hints(random: &mut Random, table: &Table, from: &Run, most: usize) -> Vec<u64> {
    let mut hints = good_hints(random, table, from, most);
    for at in 0..hints.len() / 4 {
        if random.chance(1, 6) {
            let hint = any_hint(random, table);
            hints[4 * at..4 * at + 4].copy_from_slice(&hint.0);
        }
    }
    hints
}

/// The same hint up to `most` times.
fn repeated_hint(random: &mut Random, table: &Table, most: usize) -> Vec<u64> {
    let hint = any_hint(random, table);
    let times = random.between(1, most);
    hint.0.repeat(times)
}

/// Up to `most` hints, each made by itself.
fn unlike_hints(random: &mut Random, table: &Table, most: usize) -> Vec<u64> {
    let mut hints = Vec::new();
    for _ in 0..random.between(1, most) {
        hints.extend_from_slice(&any_hint(random, table).0);
    }
    hints
}

/// A budget: nothing, small, the bound, its neighbours, the largest.
pub fn any_budget(random: &mut Random, n: usize) -> u64 {
    let bound = (2 * n * n + 2 * n) as u64;
    match random.below(6) {
        0 => random.below(4) as u64,
        1 => random.below(40) as u64,
        2 => bound,
        3 => random.one_of(&[bound - 1, bound + 1]),
        4 => u64::MAX,
        _ => random.below(bound as usize + 1) as u64,
    }
}
