//! "A set of states is four 64-bit words; state s is bit s mod 64 of word s
//! div 64."

use crate::refusal::OUT_OF_RANGE;

/// The places a set has: numbers 0 to 255.
pub const PLACES: usize = 256;

/// A set of states.
#[derive(Clone, Copy, PartialEq, Eq, Debug, Default, Hash)]
pub struct Set(pub [u64; 4]);

impl Set {
    /// The empty set.
    pub const EMPTY: Set = Set([0; 4]);

    /// The full set of n states: 0 to n-1.  n is 0 to 256 here.
    pub fn full_of(n: usize) -> Set {
        let mut all = Set::EMPTY;
        for s in 0..n {
            all.insert(s);
        }
        all
    }

    /// The set of the listed states.
    pub fn of(states: &[usize]) -> Set {
        let mut set = Set::EMPTY;
        for &s in states {
            set.insert(s);
        }
        set
    }

    /// The set held in four words.
    pub fn from_words(words: &[u64]) -> Set {
        Set([words[0], words[1], words[2], words[3]])
    }

    pub fn member(self, s: usize) -> bool {
        (self.0[s / 64] >> (s % 64)) & 1 == 1
    }

    pub fn insert(&mut self, s: usize) {
        self.0[s / 64] |= 1 << (s % 64);
    }

    pub fn remove(&mut self, s: usize) {
        self.0[s / 64] &= !(1 << (s % 64));
    }

    /// Is every member of this set a member of the other?
    pub fn within(self, other: Set) -> bool {
        self.minus(other) == Set::EMPTY
    }

    /// The members of both.
    pub fn meet(self, other: Set) -> Set {
        let (a, b) = (self.0, other.0);
        Set([a[0] & b[0], a[1] & b[1], a[2] & b[2], a[3] & b[3]])
    }

    /// The members of either.
    pub fn join(self, other: Set) -> Set {
        let (a, b) = (self.0, other.0);
        Set([a[0] | b[0], a[1] | b[1], a[2] | b[2], a[3] | b[3]])
    }

    /// The members of this set that are not members of the other.
    pub fn minus(self, other: Set) -> Set {
        let (a, b) = (self.0, other.0);
        Set([a[0] & !b[0], a[1] & !b[1], a[2] & !b[2], a[3] & !b[3]])
    }

    /// The members, rising.
    pub fn members(self) -> impl Iterator<Item = usize> {
        (0..PLACES).filter(move |&s| self.member(s))
    }
}

/// N as a number of states, refused with 2 outside 1 to 256.
pub fn number_of_states(n: u16) -> Result<usize, u8> {
    if (1..=256).contains(&n) {
        Ok(usize::from(n))
    } else {
        Err(OUT_OF_RANGE)
    }
}

/// The full set of N states, "refused with 2 for an N outside 1 to 256".
pub fn full(n: u16) -> Result<Set, u8> {
    Ok(Set::full_of(number_of_states(n)?))
}

/// The number of members, for any four words.
pub fn count(set: Set) -> u16 {
    let mut number = 0;
    for s in 0..PLACES {
        if set.member(s) {
            number += 1;
        }
    }
    number
}

/// The smallest member, for any four words; `None` for the empty set.
pub fn smallest(set: Set) -> Option<u16> {
    for s in 0..PLACES {
        if set.member(s) {
            return Some(s as u16);
        }
    }
    None
}
