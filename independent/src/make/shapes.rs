//! The shapes that the moves of a random model take.  `line` holds every
//! state once; a shape that has an order follows it.

use super::model::Model;
use crate::random::Random;

/// The states in order, backwards or in a random order.
pub fn any_order(random: &mut Random, n: usize) -> Vec<usize> {
    let mut line: Vec<usize> = (0..n).collect();
    match random.below(3) {
        0 => {}
        1 => line.reverse(),
        _ => {
            for a in (1..n).rev() {
                line.swap(a, random.below(a + 1));
            }
        }
    }
    line
}

/// Moves of some shape, or none.
pub fn add_any_shape(random: &mut Random, model: &mut Model, line: &[usize]) {
    match random.below(10) {
        // No move at all.
        0 => {}
        1 | 2 => add_few_moves(random, model),
        3 => add_many_moves(random, model),
        4 => add_chain(random, model, line),
        5 | 6 => add_layers(random, model, line),
        7 => add_rings(random, model, line),
        8 => add_two_parts(random, model, line),
        _ => add_tree(random, model, line),
    }
}

/// Sparse: 0 to 2 moves out of every state.
fn add_few_moves(random: &mut Random, model: &mut Model) {
    let n = model.states();
    for s in 0..n {
        for _ in 0..random.below(3) {
            model.add_move(s, random.below(n));
        }
    }
}

/// Dense, up to complete.
fn add_many_moves(random: &mut Random, model: &mut Model) {
    let n = model.states();
    let part = random.one_of(&[1, 4, 8, 15, 16]);
    for s in 0..n {
        for t in 0..n {
            if random.chance(part, 16) {
                model.add_move(s, t);
            }
        }
    }
}

/// A chain through all states and some moves back.
fn add_chain(random: &mut Random, model: &mut Model, line: &[usize]) {
    let n = line.len();
    for w in line.windows(2) {
        model.add_move(w[0], w[1]);
    }
    for _ in 0..random.below(n + 1) {
        let (a, b) = (random.below(n), random.below(n));
        model.add_move(line[a.max(b)], line[a.min(b)]);
    }
}

/// Layers: moves from each layer to the next, so walks have equals.
fn add_layers(random: &mut Random, model: &mut Model, line: &[usize]) {
    let n = line.len();
    let wide = random.between(1, 1 + n / 4);
    for a in 0..n {
        for b in 0..n {
            if b / wide == a / wide + 1 && random.chance(1, 2) {
                model.add_move(line[a], line[b]);
            }
        }
    }
}

/// Rings of equal length, the last one perhaps shorter.
fn add_rings(random: &mut Random, model: &mut Model, line: &[usize]) {
    let n = line.len();
    let long = random.between(1, n);
    for a in 0..n {
        let first = a / long * long;
        let last = (first + long - 1).min(n - 1);
        let b = if a == last { first } else { a + 1 };
        model.add_move(line[a], line[b]);
    }
}

/// Two parts without a move from the first to the second.
fn add_two_parts(random: &mut Random, model: &mut Model, line: &[usize]) {
    let n = line.len();
    let border = random.between(0, n);
    for _ in 0..3 * n {
        let (a, b) = (random.below(n), random.below(n));
        if a >= border || b < border {
            model.add_move(line[a], line[b]);
        }
    }
}

/// A tree: every state is reached from an earlier one.
fn add_tree(random: &mut Random, model: &mut Model, line: &[usize]) {
    for b in 1..line.len() {
        let near = random.below(b.min(3)) + 1;
        model.add_move(line[b - near], line[b]);
    }
}

/// A move to itself for some states.
pub fn add_self_loops(random: &mut Random, model: &mut Model) {
    for s in 0..model.states() {
        if random.chance(1, 3) {
            model.add_move(s, s);
        }
    }
}

/// No move any more out of some states.
pub fn make_dead_ends(random: &mut Random, model: &mut Model) {
    for s in 0..model.states() {
        if random.chance(1, 4) {
            model.moves[4 * s..4 * s + 4].fill(0);
        }
    }
}
