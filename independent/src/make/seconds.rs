//! Second tables that disagree with their move table.

use super::model::Model;
use super::sets::any_from_n_up;
use crate::random::Random;
use crate::set::PLACES;
use crate::table::MOVE_WORDS;

/// The model's second table with one bit changed, or a few, or other contents
/// altogether.
pub fn disagreeing_second(random: &mut Random, model: &Model) -> Vec<u64> {
    let right = model.second();
    let mut words = right.clone();
    match random.below(8) {
        0..=2 => change_any_bit(random, &mut words),
        3 | 4 => change_from_n_up(random, &mut words, model.states()),
        5 => (0..random.between(2, 6)).for_each(|_| change_any_bit(random, &mut words)),
        // The move table itself, in place of the second one.
        6 => words = model.moves.clone(),
        _ => words = (0..MOVE_WORDS).map(|_| random.word()).collect(),
    }
    if words == right {
        change_any_bit(random, &mut words);
    }
    words
}

/// Any of the 256 times 256 bits.
fn change_any_bit(random: &mut Random, words: &mut [u64]) {
    words[random.below(MOVE_WORDS)] ^= 1 << random.below(64);
}

/// A bit of a row from N up, of a column from N up, or of both.
fn change_from_n_up(random: &mut Random, words: &mut [u64], n: usize) {
    let (row, column) = match random.below(3) {
        0 => (any_from_n_up(random, n), random.below(PLACES)),
        1 => (random.below(PLACES), any_from_n_up(random, n)),
        _ => (any_from_n_up(random, n), any_from_n_up(random, n)),
    };
    words[4 * row + column / 64] ^= 1 << (column % 64);
}
