//! Random models, good and damaged.

use super::model::Model;
use super::sets::{any_from_n_up, some_of};
use super::shapes::{add_any_shape, add_self_loops, any_order, make_dead_ends};
use crate::file::MOST_MOVES;
use crate::random::Random;
use crate::set::Set;

/// A number of states: the ends, the word borders, and random ones.
pub fn any_n(random: &mut Random) -> usize {
    match random.below(4) {
        0 => random.one_of(&[1, 2, 3, 63, 64, 65, 127, 128, 129, 192, 193, 255, 256]),
        1 => random.between(1, 6),
        2 => random.between(1, 40),
        _ => random.between(1, 256),
    }
}

/// A random sound model of any size and shape, with any number of moves.
pub fn any_model(random: &mut Random) -> Model {
    let n = any_n(random);
    model_of(random, n)
}

/// A random sound model of at most `most` states.
pub fn small_model(random: &mut Random, most: usize) -> Model {
    let n = random.between(1, most);
    model_of(random, n)
}

/// A random sound model whose moves fit in a file.
pub fn any_file_model(random: &mut Random) -> Model {
    let mut model = any_model(random);
    model.thin_to(random, MOST_MOVES);
    model
}

/// A random sound model of N states.
pub fn model_of(random: &mut Random, n: usize) -> Model {
    let mut model = Model::blank(n);
    let line = any_order(random, n);
    add_any_shape(random, &mut model, &line);
    if random.chance(1, 4) {
        add_self_loops(random, &mut model);
    }
    if random.chance(1, 4) {
        make_dead_ends(random, &mut model);
    }
    model.i = any_starts(random, &line);
    model.p = any_safe_states(random, &model, &line);
    label_states(random, &mut model);
    model
}

/// Starts: none, all, some, or the first of the line.
fn any_starts(random: &mut Random, line: &[usize]) -> Set {
    let n = line.len();
    match random.below(8) {
        0 => Set::EMPTY,
        1 => Set::full_of(n),
        2 => some_of(random, n, 1, 2),
        3 => some_of(random, n, 1, 8),
        4 => Set::of(&[line[0], line[n / 2]]),
        _ => Set::of(&[line[0]]),
    }
}

/// Safe states: none, all, some, all that are reachable, or all but one.
fn any_safe_states(random: &mut Random, model: &Model, line: &[usize]) -> Set {
    let n = line.len();
    let full = Set::full_of(n);
    let reachable = model.reachable();
    match random.below(12) {
        0 => Set::EMPTY,
        1 => full,
        2 => some_of(random, n, 1, 2),
        3 => some_of(random, n, 15, 16),
        4 => reachable,
        5 | 6 => reachable.join(some_of(random, n, 1, 2)),
        7 => reachable.join(some_of(random, n, 7, 8)),
        8 => full.minus(Set::of(&[random.below(n)])),
        _ => full.minus(Set::of(&[line[n - 1]])),
    }
}

/// An angle and a mode for every state, at times at the ends of their range.
fn label_states(random: &mut Random, model: &mut Model) {
    for s in 0..model.states() {
        model.angles[s] = random.between(0, 359) as i16 - 180;
        model.modes[s] = random.below(16) as u8;
        if random.chance(1, 8) {
            model.angles[s] = random.one_of(&[-180, -179, -1, 0, 1, 178, 179]);
            model.modes[s] = random.one_of(&[0, 15]);
        }
    }
}

/// The chain 0 → 1 → … → n-1 with start 0 and only the last state bad.
pub fn chain(n: usize) -> Model {
    let mut model = Model::blank(n);
    for s in 1..n {
        model.add_move(s - 1, s);
    }
    model.i = Set::of(&[0]);
    model.p = Set::full_of(n - 1);
    model
}

/// A copy of a sound model that most often is no longer sound, or whose N,
/// angles or modes are out of range, or that has too many moves for a file.
pub fn damaged_model(random: &mut Random, model: &Model) -> Model {
    let mut damaged = model.clone();
    for _ in 0..random.between(1, 2) {
        damage(random, &mut damaged, model.states());
    }
    damaged
}

/// One damage to a model that had `n` states before any.
fn damage(random: &mut Random, model: &mut Model, n: usize) {
    match random.below(9) {
        0 => model.n = random.one_of(&[0, 257, 258, 300, 32768, 65535]),
        1 => model.n = random.between(1, 256) as u16,
        2 => model.i.insert(any_from_n_up(random, n)),
        3 => model.p.insert(any_from_n_up(random, n)),
        4 => model.add_move(random.below(256), any_from_n_up(random, n)),
        5 => model.add_move(any_from_n_up(random, n), random.below(n)),
        6 => {
            let at = random.below(256);
            model.angles[at] = random.one_of(&[-181, 180, -32768, 32767, 1, -180, 360]);
        }
        7 => {
            let at = random.below(256);
            model.modes[at] = random.one_of(&[16, 255, 1, 15, 128]);
        }
        _ => add_every_move(model, n),
    }
}

/// Every move between `n` states: too many for a file from 65 states on.
fn add_every_move(model: &mut Model, n: usize) {
    for s in 0..n {
        for t in 0..n {
            model.add_move(s, t);
        }
    }
}
