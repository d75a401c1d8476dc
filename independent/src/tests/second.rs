//! The second table: small cases worked out by hand, then random tables
//! against pairs.

use super::*;
use crate::make::{any_model, some_of};
use crate::random::Random;
use crate::{add, backward, backward_by_second, into, remove, second};

/// A move table and its second table.
#[derive(Clone, PartialEq, Eq, Debug)]
struct Both {
    n: u16,
    moves: Vec<u64>,
    second: Vec<u64>,
}

impl Both {
    /// The second table is made by the call.
    fn of(model: &Model) -> Both {
        let mut words = vec![MARK; 1024];
        assert_eq!(second(&model.moves, model.n, &mut words), Ok(()));
        Both {
            n: model.n,
            moves: model.moves.clone(),
            second: words,
        }
    }

    fn states_into(&self, state: u16) -> Result<Set, u8> {
        into(&self.moves, &self.second, self.n, state)
    }

    fn add(&mut self, from: u16, to: u16) -> Result<(), u8> {
        add(&mut self.moves, &mut self.second, self.n, from, to)
    }

    fn remove(&mut self, from: u16, to: u16) -> Result<(), u8> {
        remove(&mut self.moves, &mut self.second, self.n, from, to)
    }

    fn g(&self, x: Set) -> Result<Set, u8> {
        backward_by_second(&self.moves, &self.second, self.n, x)
    }
}

/// 1,024 words, all 0 but those given with their places.
fn words(places: &[(usize, u64)]) -> Vec<u64> {
    let mut words = vec![0; 1024];
    for &(place, word) in places {
        words[place] = word;
    }
    words
}

#[test]
fn made_of_a_and_b() {
    // A: 1 moves to 0, and 0 to 1.
    assert_eq!(Both::of(&model_a()).second, words(&[(0, 2), (4, 1)]));
    // B: 0 moves to 1, and 1 to 2.
    assert_eq!(Both::of(&model_b()).second, words(&[(4, 1), (8, 2)]));
}

#[test]
fn made_at_the_borders_of_words() {
    let pairs = [(0, 255), (255, 0), (63, 64), (255, 64), (255, 255)];
    let both = Both::of(&Model::of(256, &pairs, &[], &[]));
    // Row 0 holds 255; row 64 holds 63 and 255; row 255 holds 0 and 255.
    let high = 1 << 63;
    let expected = [(3, high), (256, high), (259, high), (1020, 1), (1023, high)];
    assert_eq!(both.second, words(&expected));
}

#[test]
fn into_each_state_of_b() {
    let b = Both::of(&model_b());
    assert_eq!(b.states_into(0), Ok(Set::EMPTY));
    assert_eq!(b.states_into(1), Ok(set_of(&[0])));
    assert_eq!(b.states_into(2), Ok(set_of(&[1])));
}

#[test]
fn edits_of_b() {
    let first = Both::of(&model_b());
    let mut b = first.clone();
    assert_eq!(b.add(0, 2), Ok(()));
    assert_eq!(b.moves, words(&[(0, 6), (4, 4)]));
    assert_eq!(b.second, words(&[(4, 1), (8, 3)]));
    assert_eq!(b.states_into(2), Ok(set_of(&[0, 1])));
    assert_eq!(b.add(2, 2), Ok(()));
    assert_eq!(b.moves, words(&[(0, 6), (4, 4), (8, 4)]));
    assert_eq!(b.second, words(&[(4, 1), (8, 7)]));
    assert_eq!(b.remove(1, 2), Ok(()));
    assert_eq!(b.moves, words(&[(0, 6), (8, 4)]));
    assert_eq!(b.second, words(&[(4, 1), (8, 5)]));
    assert_eq!(b.states_into(2), Ok(set_of(&[0, 2])));
    // The same moves back: both tables as at first.
    assert_eq!(b.add(1, 2), Ok(()));
    assert_eq!(b.remove(2, 2), Ok(()));
    assert_eq!(b.remove(0, 2), Ok(()));
    assert_eq!(b, first);
}

#[test]
fn edits_at_the_borders_of_words() {
    let mut both = Both::of(&Model::blank(256));
    assert_eq!(both.add(255, 64), Ok(()));
    assert_eq!(both.moves, words(&[(1021, 1)]));
    assert_eq!(both.second, words(&[(259, 1 << 63)]));
    assert_eq!(both.add(63, 255), Ok(()));
    assert_eq!(both.moves, words(&[(255, 1 << 63), (1021, 1)]));
    assert_eq!(both.second, words(&[(259, 1 << 63), (1020, 1 << 63)]));
    assert_eq!(both.remove(255, 64), Ok(()));
    assert_eq!(both.moves, words(&[(255, 1 << 63)]));
    assert_eq!(both.second, words(&[(1020, 1 << 63)]));
}

/// "A state with no move is in every g(X)", and B's row of document 01.
#[test]
fn g_of_b_by_the_second_table() {
    let b = Both::of(&model_b());
    assert_eq!(b.g(set_of(&[0, 1])), Ok(set_of(&[0, 2])));
    assert_eq!(b.g(Set::EMPTY), Ok(set_of(&[2])));
    assert_eq!(b.g(set_of(&[2])), Ok(set_of(&[1, 2])));
    assert_eq!(b.g(set_of(&[0, 1, 2])), Ok(set_of(&[0, 1, 2])));
}

#[test]
fn second_into_and_g_by_pairs() {
    let mut random = Random::new(51);
    for _ in 0..300 {
        let model = any_model(&mut random);
        let both = Both::of(&model);
        let mut leading_to = vec![Set::EMPTY; 256];
        for (from, to) in model.pairs() {
            leading_to[to].insert(from);
        }
        for (t, row) in leading_to.iter().enumerate() {
            assert_eq!(both.second[4 * t..4 * t + 4], row.0);
        }
        let state = random.below(model.states());
        assert_eq!(both.states_into(state as u16), Ok(leading_to[state]));
        for _ in 0..5 {
            let part = random.below(17);
            let x = some_of(&mut random, model.states(), part, 16);
            assert_eq!(both.g(x), backward(&model.moves, model.n, x));
        }
    }
}

type Edit = fn(&mut Both, u16, u16) -> Result<(), u8>;

/// Every edit of a random table changes the one bit in each table, leaves the
/// second table that would be made anew, and can be taken back.
#[test]
fn edits_by_pairs() {
    let mut random = Random::new(52);
    let (mut added, mut removed) = (0, 0);
    for _ in 0..300 {
        let mut model = any_model(&mut random);
        let mut both = Both::of(&model);
        for _ in 0..6 {
            let before = both.clone();
            let (from, to) = (random.below(model.states()), random.below(model.states()));
            let there = model.has_move(from, to);
            let (a, b) = (from as u16, to as u16);
            let (edit, back): (Edit, Edit) = if there {
                removed += 1;
                (Both::remove, Both::add)
            } else {
                added += 1;
                (Both::add, Both::remove)
            };
            assert_eq!(back(&mut both, a, b), Err(15));
            assert_eq!(both, before);
            assert_eq!(edit(&mut both, a, b), Ok(()));
            model.moves[4 * from + to / 64] ^= 1 << (to % 64);
            assert_eq!((&both.moves, &both.second), (&model.moves, &model.second()));
            let mut undone = both.clone();
            assert_eq!(back(&mut undone, a, b), Ok(()));
            assert_eq!(undone, before);
        }
    }
    assert!(added > 300 && removed > 100, "{added} {removed}");
}
