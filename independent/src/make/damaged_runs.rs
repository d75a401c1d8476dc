//! Run buffers that most often fail the entry check.

use super::sets::{any_from_n_up, any_member};
use crate::random::Random;
use crate::rules::Run;
use crate::run_buffer::{place_of_x, place_of_y, put, MOST_SETS, RUN_WORDS};
use crate::set::Set;
use crate::table::Table;

/// The buffer of a good run, damaged in one place or (seldom) two.
pub fn damaged_run(random: &mut Random, table: &Table, held: &Run) -> [u64; RUN_WORDS] {
    let mut words = put(held);
    let times = if random.chance(1, 8) { 2 } else { 1 };
    for _ in 0..times {
        damage(random, &mut words, table, held);
    }
    words
}

/// One damage to the buffer of `held`.
fn damage(random: &mut Random, words: &mut [u64], table: &Table, held: &Run) {
    let (n, k) = (held.n(), held.k());
    match random.below(13) {
        0 => words[0] = any_other_n(random, table.n, n),
        1 => words[1] = any_other_k(random, n, k),
        // Any bit.
        2 => words[random.below(RUN_WORDS)] ^= 1 << random.below(64),
        3 => mark_any_set(random, words),
        // A member from N up.
        4 => {
            let place = place_in_use(random, n, k);
            set_bit(words, place, any_from_n_up(random, table.n));
        }
        // x_0 not empty.
        5 => set_bit(words, place_of_x(0), random.below(table.n)),
        // A member of some x dropped.
        6 | 7 => {
            let j = random.below(n);
            clear_some(random, words, place_of_x(j));
        }
        // A member added to some x.
        8 => {
            let j = random.between(0, n - 1);
            set_bit(words, place_of_x(j), random.below(table.n));
        }
        // A member of some y dropped.
        9 | 10 => {
            let j = random.between(k.min(n - 1), n - 1);
            clear_some(random, words, place_of_y(j));
        }
        11 => put_x_into_its_y(random, words, n, k),
        _ => exchange_two_x(random, words, n),
    }
}

/// n: out of range, at the end of its range, or off by one.
fn any_other_n(random: &mut Random, n_states: usize, n: usize) -> u64 {
    const LARGE: u64 = 1 << 32;
    let (n_states, n) = (n_states as u64, n as u64);
    match random.below(3) {
        0 => random.one_of(&[0, 1, 2, 3, 257, 258, 259, 260, u64::MAX, LARGE, LARGE + 2]),
        1 => random.one_of(&[n_states + 2, n_states + 3]),
        _ => random.one_of(&[n + 1, n - 1]),
    }
}

/// k: far out of range, at the ends of its range, or off by one.
fn any_other_k(random: &mut Random, n: usize, k: usize) -> u64 {
    let (n, k) = (n as u64, k as u64);
    match random.below(3) {
        0 => random.one_of(&[u64::MAX, 1 << 32, (1 << 32) + 1, (1 << 63) + 1]),
        _ => random.one_of(&[0, 1, n, n + 1, k + 1, k - 1, 258]),
    }
}

/// A bit put into some x or y, most often one not in use.
fn mark_any_set(random: &mut Random, words: &mut [u64]) {
    let j = random.below(MOST_SETS);
    let place = if random.chance(1, 2) {
        place_of_x(j)
    } else {
        place_of_y(j)
    };
    words[place + random.below(4)] |= 1 << random.below(64);
}

/// Some y, if any is held, made to contain its x.
fn put_x_into_its_y(random: &mut Random, words: &mut [u64], n: usize, k: usize) {
    if k < n {
        let j = random.between(k, n - 1);
        for word in 0..4 {
            words[place_of_y(j) + word] |= words[place_of_x(j) + word];
        }
    }
}

/// Two x exchanged.
fn exchange_two_x(random: &mut Random, words: &mut [u64], n: usize) {
    let (a, b) = (random.below(n), random.below(n));
    for word in 0..4 {
        words.swap(place_of_x(a) + word, place_of_x(b) + word);
    }
}

/// The place of some x or held y.
fn place_in_use(random: &mut Random, n: usize, k: usize) -> usize {
    if k < n && random.chance(1, 2) {
        place_of_y(random.between(k, n - 1))
    } else {
        place_of_x(random.below(n))
    }
}

/// The state s put into the set at the place.
fn set_bit(words: &mut [u64], place: usize, s: usize) {
    words[place + s / 64] |= 1 << (s % 64);
}

/// A member, if there is one, dropped from the set at the place.
fn clear_some(random: &mut Random, words: &mut [u64], place: usize) {
    let mut set = Set::from_words(&words[place..place + 4]);
    if set != Set::EMPTY {
        set.remove(any_member(random, set));
        words[place..place + 4].copy_from_slice(&set.0);
    }
}
