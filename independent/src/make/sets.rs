//! Random sets.

use crate::random::Random;
use crate::set::{Set, PLACES};

/// A random set of members below n, each held `part` times in `whole`.
pub fn some_of(random: &mut Random, n: usize, part: usize, whole: usize) -> Set {
    let mut set = Set::EMPTY;
    for s in 0..n {
        if random.chance(part, whole) {
            set.insert(s);
        }
    }
    set
}

/// A random subset of the set, of a random thickness, often empty or whole.
pub fn some_within(random: &mut Random, set: Set) -> Set {
    let part = random.one_of(&[0, 1, 2, 8, 14, 15, 16]);
    some_of(random, PLACES, part, 16).meet(set)
}

/// A random member of a set that has one.
pub fn any_member(random: &mut Random, set: Set) -> usize {
    let members: Vec<usize> = set.members().collect();
    random.one_of(&members)
}

/// Any four words: random, empty, full of some n, one bit, all ones.
pub fn any_words(random: &mut Random) -> Set {
    match random.below(6) {
        0 => Set::EMPTY,
        1 => Set([u64::MAX; 4]),
        2 => Set::full_of(random.between(0, 256)),
        3 => Set::of(&[random.below(256)]),
        4 => some_of(random, 256, 1, 16),
        _ => Set([random.word(), random.word(), random.word(), random.word()]),
    }
}

/// A number from n up that a set has a place for; 255 when n is 256.
pub fn any_from_n_up(random: &mut Random, n: usize) -> usize {
    random.between(n.min(255), 255)
}
