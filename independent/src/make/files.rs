//! Random files, good and damaged.

use super::model::Model;
use super::models::model_of;
use crate::file::MOST_MOVES;
use crate::random::Random;

/// A file: most often that of a model with some damage, sometimes good,
/// sometimes random bytes.
pub fn any_file(random: &mut Random) -> Vec<u8> {
    if random.chance(1, 20) {
        return any_bytes(random);
    }
    let most = if random.chance(1, 4) { 256 } else { 8 };
    let n = random.between(1, most);
    let mut model = model_of(random, n);
    model.thin_to(random, MOST_MOVES);
    let file = model.file();
    if random.chance(1, 8) {
        file
    } else {
        damaged_file(random, &model, &file)
    }
}

/// Up to 63 bytes that are common in files.
fn any_bytes(random: &mut Random) -> Vec<u8> {
    (0..random.below(64))
        .map(|_| random.one_of(&[0, 1, 2, 3, 255, 16, 170, 179]))
        .collect()
}

/// The file of the model, damaged in one to three places.
pub fn damaged_file(random: &mut Random, model: &Model, file: &[u8]) -> Vec<u8> {
    let sections = Sections::of(model);
    let mut bytes = file.to_vec();
    for _ in 0..random.between(1, 3) {
        if bytes.is_empty() {
            break;
        }
        damage(random, &mut bytes, &sections);
    }
    bytes
}

/// The number of states, and where the later sections of a file begin.
struct Sections {
    n: usize,
    starts_at: usize,
    safe_at: usize,
    moves_at: usize,
}

impl Sections {
    fn of(model: &Model) -> Sections {
        let n = model.states();
        let starts_at = 2 + 3 * n;
        let safe_at = starts_at + 2 + 2 * model.i.members().count();
        let moves_at = safe_at + 2 + 2 * model.p.members().count();
        Sections {
            n,
            starts_at,
            safe_at,
            moves_at,
        }
    }

    /// The place of a count.
    fn any_count(&self, random: &mut Random) -> usize {
        random.one_of(&[0, self.starts_at, self.safe_at, self.moves_at])
    }

    /// The place of one of the later sections, most often the moves.
    fn any_later(&self, random: &mut Random) -> usize {
        let moves_at = self.moves_at;
        random.one_of(&[self.starts_at, self.safe_at, moves_at, moves_at, moves_at])
    }
}

/// One damage to a file that has at least one byte.
fn damage(random: &mut Random, bytes: &mut Vec<u8>, sections: &Sections) {
    let at = random.below(bytes.len());
    match random.below(10) {
        // Cut off.
        0 => bytes.truncate(at),
        // Cut off near the end.
        1 => bytes.truncate(bytes.len() - random.below(bytes.len().min(5))),
        2 => add_bytes(random, bytes),
        // One byte changed.
        3 => bytes[at] = random.word() as u8,
        // One bit changed.
        4 => bytes[at] ^= 1 << random.below(8),
        5 => change_count(random, bytes, sections),
        6 => change_count_by_one(random, bytes, sections),
        7 => change_number(random, bytes, sections),
        8 => change_state(random, bytes, sections.n),
        _ => mix_two_moves(random, bytes, sections.moves_at),
    }
}

/// Bytes after the end.
fn add_bytes(random: &mut Random, bytes: &mut Vec<u8>) {
    for _ in 0..random.between(1, 5) {
        bytes.push(random.word() as u8);
    }
}

/// A count changed to one at the border of some range.
fn change_count(random: &mut Random, bytes: &mut [u8], sections: &Sections) {
    let n = sections.n;
    let place = sections.any_count(random);
    let new = random.one_of(&[0, n, n + 1, 256, 257, 4096, 4097, 65535, 1]);
    put_at(bytes, place, new as u16);
}

/// A count changed by one.
fn change_count_by_one(random: &mut Random, bytes: &mut [u8], sections: &Sections) {
    let place = sections.any_count(random);
    // An earlier damage may have cut the count off.
    if place + 2 > bytes.len() {
        return;
    }
    let old = u16::from_le_bytes([bytes[place], bytes[place + 1]]);
    let new = if random.chance(1, 2) {
        old.wrapping_add(1)
    } else {
        old.wrapping_sub(1)
    };
    put_at(bytes, place, new);
}

/// A number of a later section changed.
fn change_number(random: &mut Random, bytes: &mut [u8], sections: &Sections) {
    let n = sections.n;
    let place = sections.any_later(random) + 2 * random.below(8);
    let new = random.one_of(&[0, 1, n - 1, n, n + 1, 255, 256, 65535]);
    put_at(bytes, place, new as u16);
}

/// An angle or a mode changed.
fn change_state(random: &mut Random, bytes: &mut [u8], n: usize) {
    let place = 2 + 3 * random.below(n);
    if random.chance(1, 2) {
        let new = random.one_of(&[-181i16, -180, 179, 180, 32767, -32768]);
        put_at(bytes, place, new as u16);
    } else if place + 2 < bytes.len() {
        bytes[place + 2] = random.one_of(&[15, 16, 255]);
    }
}

/// Two moves exchanged, or one doubled, byte by byte.
fn mix_two_moves(random: &mut Random, bytes: &mut [u8], moves_at: usize) {
    let moves = bytes.len().saturating_sub(moves_at + 2) / 4;
    if moves < 2 {
        return;
    }
    let a = moves_at + 2 + 4 * random.below(moves);
    let b = moves_at + 2 + 4 * random.below(moves);
    for byte in 0..4 {
        if random.chance(1, 2) {
            bytes[b + byte] = bytes[a + byte];
        } else {
            bytes.swap(a + byte, b + byte);
        }
    }
}

/// The number, little-endian, at a place that the bytes may no longer have.
fn put_at(bytes: &mut [u8], place: usize, number: u16) {
    if place + 2 <= bytes.len() {
        bytes[place..place + 2].copy_from_slice(&number.to_le_bytes());
    }
}
