//! The run buffer: "Word 0 is n, word 1 is k, x_j starts at word 2 + 4·j,
//! y_j at word 1,034 + 4·j; words not in use are 0".

use crate::rules::Run;
use crate::set::Set;
use crate::table::Table;
use std::collections::VecDeque;

/// The words of a run buffer.
pub const RUN_WORDS: usize = 2066;
/// x_j and y_j have a place for j from 0 to 257.
pub const MOST_SETS: usize = 258;

pub fn place_of_x(j: usize) -> usize {
    2 + 4 * j
}

pub fn place_of_y(j: usize) -> usize {
    1034 + 4 * j
}

/// The run as a run buffer.  Whatever is not in use is 0.
pub fn put(run: &Run) -> [u64; RUN_WORDS] {
    let mut words = [0; RUN_WORDS];
    words[0] = run.n() as u64;
    words[1] = run.k() as u64;
    for j in 0..run.n() {
        words[place_of_x(j)..place_of_x(j) + 4].copy_from_slice(&run.x[j].0);
    }
    for j in run.k()..run.n() {
        words[place_of_y(j)..place_of_y(j) + 4].copy_from_slice(&run.y(j).0);
    }
    words
}

/// The run in a buffer of 2,066 words, or `None` when the buffer fails the
/// entry check.  The conditions are tested in the order of document 01.
pub fn take(words: &[u64], table: &Table) -> Option<Run> {
    if !counts_in_range(words, table.n) {
        return None;
    }
    if !words_not_in_use_are_0(words) {
        return None;
    }
    let run = take_unchecked(words);
    let passes = no_set_has_members_from_n_up(&run, table)
        && x_0_is_empty(&run)
        && chain_rises(&run, table)
        && x_before_last_within_p(&run, table)
        && last_y_contains_p(&run, table)
        && g_within_for_held_neighbours(&run, table)
        && no_x_within_its_held_y(&run);
    if passes {
        Some(run)
    } else {
        None
    }
}

/// "n is 2 to N+2 and k is 1 to n"
fn counts_in_range(words: &[u64], n_states: usize) -> bool {
    let (n, k) = (words[0], words[1]);
    2 <= n && n <= n_states as u64 + 2 && 1 <= k && k <= n
}

/// "every word not in use is 0"
fn words_not_in_use_are_0(words: &[u64]) -> bool {
    let (n, k) = (words[0] as usize, words[1] as usize);
    for j in 0..MOST_SETS {
        let x_in_use = j < n;
        let y_in_use = k <= j && j < n;
        if !x_in_use && words[place_of_x(j)..place_of_x(j) + 4] != [0; 4] {
            return false;
        }
        if !y_in_use && words[place_of_y(j)..place_of_y(j) + 4] != [0; 4] {
            return false;
        }
    }
    true
}

/// The run held by words whose n and k are in range.
fn take_unchecked(words: &[u64]) -> Run {
    let (n, k) = (words[0] as usize, words[1] as usize);
    let mut x = Vec::new();
    for j in 0..n {
        x.push(Set::from_words(&words[place_of_x(j)..place_of_x(j) + 4]));
    }
    let mut y = VecDeque::new();
    for j in k..n {
        y.push_back(Set::from_words(&words[place_of_y(j)..place_of_y(j) + 4]));
    }
    Run { x, y }
}

/// "no set has members from N up"
fn no_set_has_members_from_n_up(run: &Run, table: &Table) -> bool {
    run.x
        .iter()
        .chain(run.y.iter())
        .all(|set| !table.moves.holds_number_from_n_up(*set))
}

/// "x_0 is empty"
fn x_0_is_empty(run: &Run) -> bool {
    run.x[0] == Set::EMPTY
}

/// "each x_j, I and f(x_j) are within x_(j+1)"
fn chain_rises(run: &Run, table: &Table) -> bool {
    (0..run.n() - 1).all(|j| {
        let above = run.x[j + 1];
        run.x[j].within(above) && table.i.within(above) && table.f(run.x[j]).within(above)
    })
}

/// "x_(n-2) is within P"
fn x_before_last_within_p(run: &Run, table: &Table) -> bool {
    run.x[run.n() - 2].within(table.p)
}

/// "y_(n-1), if held, contains P"
fn last_y_contains_p(run: &Run, table: &Table) -> bool {
    match run.y.back() {
        Some(last) => table.p.within(*last),
        None => true,
    }
}

/// "g(y_(j+1)) is within y_j for held neighbours"
fn g_within_for_held_neighbours(run: &Run, table: &Table) -> bool {
    (run.k()..run.n() - 1).all(|j| table.g(run.y(j + 1)).within(run.y(j)))
}

/// "no x_j is within its held y_j"
fn no_x_within_its_held_y(run: &Run) -> bool {
    (run.k()..run.n()).all(|j| !run.x[j].within(run.y(j)))
}
