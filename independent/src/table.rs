//! The table, f and g.

use crate::refusal::{NOT_SOUND, WRONG_LENGTH};
use crate::set::{number_of_states, Set, PLACES};

/// The words of a move table.
pub const MOVE_WORDS: usize = 1024;

/// The 256 rows held in 1,024 words.
pub fn rows_of(words: &[u64]) -> Vec<Set> {
    (0..PLACES)
        .map(|s| Set::from_words(&words[4 * s..4 * s + 4]))
        .collect()
}

/// The moves: row s is the set of states one move from s.  256 rows.
pub struct Moves {
    pub n: usize,
    /// The full set of the N states.
    pub full: Set,
    pub rows: Vec<Set>,
}

impl Moves {
    /// The rows held in 1,024 words.
    pub fn take(words: &[u64], n: usize) -> Moves {
        let full = Set::full_of(n);
        let rows = rows_of(words);
        Moves { n, full, rows }
    }

    /// Does the set hold a number from N up, that is, outside the full set?
    pub fn holds_number_from_n_up(&self, set: Set) -> bool {
        !set.within(self.full)
    }

    /// "all rows hold no number from N up and rows from N up are empty"
    pub fn sound(&self) -> bool {
        for s in 0..PLACES {
            if self.holds_number_from_n_up(self.rows[s]) {
                return false;
            }
            if s >= self.n && self.rows[s] != Set::EMPTY {
                return false;
            }
        }
        true
    }

    /// "f(X): every state with a move into it from a member of X."
    pub fn f(&self, x: Set) -> Set {
        let mut into = Set::EMPTY;
        for s in 0..self.n {
            if x.member(s) {
                into = into.join(self.rows[s]);
            }
        }
        into
    }

    /// "g(X): every state all of whose moves end in X. A state with no move
    /// is in every g(X)."
    pub fn g(&self, x: Set) -> Set {
        let mut from = Set::EMPTY;
        for s in 0..self.n {
            if self.rows[s].within(x) {
                from.insert(s);
            }
        }
        from
    }
}

/// A table known to be sound: the moves, the starts I and the safe states P.
pub struct Table {
    pub n: usize,
    pub i: Set,
    pub p: Set,
    pub moves: Moves,
}

impl Table {
    /// The table of a call that has already tested the length of `moves`:
    /// refusals 2 and 13, in that order.
    pub fn take(moves: &[u64], n: u16, i: Set, p: Set) -> Result<Table, u8> {
        let n = number_of_states(n)?;
        let moves = Moves::take(moves, n);
        if moves.holds_number_from_n_up(i) || moves.holds_number_from_n_up(p) || !moves.sound() {
            return Err(NOT_SOUND);
        }
        Ok(Table { n, i, p, moves })
    }

    pub fn full(&self) -> Set {
        self.moves.full
    }

    pub fn f(&self, x: Set) -> Set {
        self.moves.f(x)
    }

    pub fn g(&self, x: Set) -> Set {
        self.moves.g(x)
    }
}

/// f.  Refusals 7, 2, 13 in that order.
pub fn forward(moves: &[u64], n: u16, x: Set) -> Result<Set, u8> {
    Ok(moves_for(moves, n, x)?.f(x))
}

/// g.  Refusals 7, 2, 13 in that order.
pub fn backward(moves: &[u64], n: u16, x: Set) -> Result<Set, u8> {
    Ok(moves_for(moves, n, x)?.g(x))
}

/// The moves of a call of f or g on x, all refusals tested.
fn moves_for(moves: &[u64], n: u16, x: Set) -> Result<Moves, u8> {
    let moves = sound_moves(moves, n)?;
    if moves.holds_number_from_n_up(x) {
        return Err(NOT_SOUND);
    }
    Ok(moves)
}

/// The moves of a call given no I and P.  Refusals 7, 2, 13 in that order.
pub fn sound_moves(moves: &[u64], n: u16) -> Result<Moves, u8> {
    if moves.len() != MOVE_WORDS {
        return Err(WRONG_LENGTH);
    }
    let moves = Moves::take(moves, number_of_states(n)?);
    if !moves.sound() {
        return Err(NOT_SOUND);
    }
    Ok(moves)
}
