//! Random runs and run buffers.

use super::damaged_runs::damaged_run;
use super::sets::{any_member, some_of, some_within};
use crate::random::Random;
use crate::rules::{Rule, Run};
use crate::run_buffer::{put, take, RUN_WORDS};
use crate::set::Set;
use crate::table::Table;

/// A random choice that the rule due allows.  `None` for Unfold.
pub fn any_allowed(random: &mut Random, table: &Table, held: &Run, rule: Rule) -> Option<Set> {
    let house = held.house_choice(table, rule)?;
    if random.chance(1, 4) {
        return Some(house);
    }
    match rule {
        Rule::Unfold => None,
        Rule::Candidate => Some(any_above(random, table, house, held.x[held.n() - 1])),
        Rule::Decide => Some(any_above(random, table, house, held.x[held.k() - 1])),
        Rule::Conflict => Some(any_closed_below(random, table, house, held.x[held.k() - 1])),
    }
}

/// Above the house choice, but one member of x stays out.
fn any_above(random: &mut Random, table: &Table, house: Set, x: Set) -> Set {
    let out = any_member(random, x.minus(house));
    let mut more = some_within(random, table.full());
    more.remove(out);
    house.join(more)
}

/// Below the house choice: the starts and a seed, closed under moves out of x.
fn any_closed_below(random: &mut Random, table: &Table, house: Set, x: Set) -> Set {
    let mut z = table.i.join(some_within(random, house));
    loop {
        let more = z.join(table.f(x.meet(z)));
        if more == z {
            return z;
        }
        z = more;
    }
}

/// A run after at most `most` rules with random allowed choices, from fresh.
pub fn any_reached_run(random: &mut Random, table: &Table, most: usize) -> Run {
    let mut held = Run::fresh(table.n);
    for _ in 0..random.between(0, most) {
        if held.conclusion(table).is_some() {
            break;
        }
        let rule = held.rule_due(table);
        let z = any_allowed(random, table, &held, rule).unwrap_or(Set::EMPTY);
        held.fire(table, rule, z);
    }
    held
}

/// A run put together so that it passes the entry check, though perhaps no
/// run from fresh comes there; also concluded ones.
pub fn any_built_run(random: &mut Random, table: &Table) -> Run {
    let mut held = Run {
        x: any_rising_x(random, table),
        y: Default::default(),
    };
    put_any_y(random, table, &mut held);
    held
}

/// x_0 up to some x_(n-1), each no less than the entry check asks.
fn any_rising_x(random: &mut Random, table: &Table) -> Vec<Set> {
    let length = random.between(2, table.n + 2);
    let grows = random.chance(1, 2);
    let mut x = vec![Set::EMPTY];
    while x.len() < length {
        let below = x[x.len() - 1];
        let least = below.join(table.i).join(table.f(below));
        let more = match (grows, random.below(4)) {
            (true, 0) => some_of(random, table.n, 1, 16),
            (true, 1) => some_within(random, table.p),
            _ => Set::EMPTY,
        };
        let wanted = least.join(more.meet(table.p));
        if wanted.within(table.p) && x.len() + 1 < length {
            x.push(wanted);
        } else {
            // The last x may hold anything above the least.
            x.push(least.join(some_within(random, table.full())));
            break;
        }
    }
    x
}

/// y from the top down, as far as wanted and possible.
fn put_any_y(random: &mut Random, table: &Table, held: &mut Run) {
    let wanted = random.between(0, held.n() - 1);
    let mut least = table.p;
    for _ in 0..wanted {
        let x = held.x[held.k() - 1];
        if x.within(least) {
            break;
        }
        let out = any_member(random, x.minus(least));
        let mut more = match random.below(3) {
            0 => Set::EMPTY,
            1 => some_of(random, table.n, 1, 8),
            _ => some_within(random, table.full()),
        };
        more.remove(out);
        let z = least.join(more);
        held.y.push_front(z);
        least = table.g(z);
    }
}

/// A run that passes the entry check.
pub fn any_good_run(random: &mut Random, table: &Table) -> Run {
    let held = match random.below(4) {
        0 => Run::fresh(table.n),
        1 => any_built_run(random, table),
        _ => {
            let most = random.one_of(&[3, 10, 40]);
            any_reached_run(random, table, most)
        }
    };
    assert!(take(&put(&held), table).is_some(), "a run made to be good");
    held
}

/// A run buffer of 2,066 words: good most often, else damaged, else random.
pub fn any_run_buffer(random: &mut Random, table: &Table) -> [u64; RUN_WORDS] {
    let held = any_good_run(random, table);
    match random.below(8) {
        0..=3 => put(&held),
        4..=6 => damaged_run(random, table, &held),
        _ => any_few_words(random),
    }
}

/// Small n and k and a few random words.
fn any_few_words(random: &mut Random) -> [u64; RUN_WORDS] {
    let mut words = [0; RUN_WORDS];
    words[0] = random.between(0, 5) as u64;
    words[1] = random.between(0, 5) as u64;
    for _ in 0..random.below(20) {
        words[random.below(RUN_WORDS)] = random.word();
    }
    words
}
