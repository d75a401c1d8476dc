//! Reading and writing the file.

use crate::angle::{angle_in_range, mode_in_range};
use crate::refusal::{
    ANGLE_OR_MODE, EXTRA_BYTES, FILE_ENDS, NOT_RISING, NOT_SOUND, OUTPUT_SHORT, OUT_OF_RANGE,
    STATE_NUMBER, WRONG_LENGTH,
};
use crate::set::{count, Set, PLACES};
use crate::table::{Table, MOVE_WORDS};

/// The most moves a file holds.
pub const MOST_MOVES: usize = 4096;

/// What reading answers with.
#[derive(Clone, Copy, PartialEq, Eq, Debug)]
pub struct Read {
    pub n: u16,
    pub starts: Set,
    pub safe: Set,
    /// The number of moves.
    pub moves: usize,
}

/// A refusal number and the byte offset of the count, entry or first extra
/// byte.
pub type ReadRefusal = (u8, usize);

/// The lent file and the place reached in it.
struct Reader<'a> {
    file: &'a [u8],
    place: usize,
}

impl Reader<'_> {
    /// The next `length` bytes with their offset, or 1 at that offset.
    fn take(&mut self, length: usize) -> Result<(usize, Vec<u8>), ReadRefusal> {
        let offset = self.place;
        if self.file.len() - offset < length {
            return Err((FILE_ENDS, offset));
        }
        self.place = offset + length;
        Ok((offset, self.file[offset..self.place].to_vec()))
    }

    /// A count from `least` to `most`, or 2 at its offset.
    fn take_count(&mut self, least: usize, most: usize) -> Result<usize, ReadRefusal> {
        let (offset, bytes) = self.take(2)?;
        let count = usize::from(u16::from_le_bytes([bytes[0], bytes[1]]));
        if count < least || count > most {
            return Err((OUT_OF_RANGE, offset));
        }
        Ok(count)
    }

    /// An entry of states: angle, mode.
    fn take_state(&mut self) -> Result<(i16, u8), ReadRefusal> {
        let (offset, bytes) = self.take(3)?;
        let angle = i16::from_le_bytes([bytes[0], bytes[1]]);
        let mode = bytes[2];
        if !angle_in_range(angle) || !mode_in_range(mode) {
            return Err((ANGLE_OR_MODE, offset));
        }
        Ok((angle, mode))
    }

    /// The section of states.
    fn take_states(&mut self) -> Result<Vec<(i16, u8)>, ReadRefusal> {
        let entries = self.take_count(1, 256)?;
        let mut states = Vec::new();
        for _ in 0..entries {
            states.push(self.take_state()?);
        }
        Ok(states)
    }

    /// A section of state numbers, strictly rising.
    fn take_set(&mut self, n: usize) -> Result<Set, ReadRefusal> {
        let entries = self.take_count(0, n)?;
        let mut set = Set::EMPTY;
        let mut before: Option<usize> = None;
        for _ in 0..entries {
            let (offset, bytes) = self.take(2)?;
            let state = usize::from(u16::from_le_bytes([bytes[0], bytes[1]]));
            if state >= n {
                return Err((STATE_NUMBER, offset));
            }
            if let Some(before) = before {
                if state <= before {
                    return Err((NOT_RISING, offset));
                }
            }
            set.insert(state);
            before = Some(state);
        }
        Ok(set)
    }

    /// The section of moves: pairs, "strictly rising, by from and then by to".
    fn take_moves(&mut self, n: usize) -> Result<Vec<(usize, usize)>, ReadRefusal> {
        let entries = self.take_count(0, MOST_MOVES)?;
        let mut pairs: Vec<(usize, usize)> = Vec::new();
        for _ in 0..entries {
            let (offset, bytes) = self.take(4)?;
            let from = usize::from(u16::from_le_bytes([bytes[0], bytes[1]]));
            let to = usize::from(u16::from_le_bytes([bytes[2], bytes[3]]));
            if from >= n || to >= n {
                return Err((STATE_NUMBER, offset));
            }
            if let Some(&(from_before, to_before)) = pairs.last() {
                let rises = from > from_before || (from == from_before && to > to_before);
                if !rises {
                    return Err((NOT_RISING, offset));
                }
            }
            pairs.push((from, to));
        }
        Ok(pairs)
    }
}

/// Read a file.  Refusal 7 (with offset 0) for buffers of the wrong length,
/// then 1 to 6 in file order; within an entry 1, 3, 4, 5.
pub fn read(
    file: &[u8],
    moves: &mut [u64],
    angles: &mut [i16],
    modes: &mut [u8],
) -> Result<Read, ReadRefusal> {
    if moves.len() != MOVE_WORDS || angles.len() != PLACES || modes.len() != PLACES {
        return Err((WRONG_LENGTH, 0));
    }
    let mut reader = Reader { file, place: 0 };
    let states = reader.take_states()?;
    let n = states.len();
    let starts = reader.take_set(n)?;
    let safe = reader.take_set(n)?;
    let pairs = reader.take_moves(n)?;
    if reader.place < file.len() {
        return Err((EXTRA_BYTES, reader.place));
    }

    // Nothing can be refused any more: fill the lent buffers.
    fill_moves(moves, &pairs);
    fill_states(angles, modes, &states);
    Ok(Read {
        n: n as u16,
        starts,
        safe,
        moves: pairs.len(),
    })
}

/// The move table with these moves and no other.
fn fill_moves(moves: &mut [u64], pairs: &[(usize, usize)]) {
    moves.fill(0);
    for &(from, to) in pairs {
        moves[4 * from + to / 64] |= 1 << (to % 64);
    }
}

/// The angles and modes of the states; "places from N up become 0".
fn fill_states(angles: &mut [i16], modes: &mut [u8], states: &[(i16, u8)]) {
    angles.fill(0);
    modes.fill(0);
    for (s, &(angle, mode)) in states.iter().enumerate() {
        angles[s] = angle;
        modes[s] = mode;
    }
}

/// Write a file and answer with its length.  Refusals 7, 2 for N, 13, 3, 2
/// for moves, 12.  "bytes past the file stay".
pub fn write(
    n: u16,
    i: Set,
    p: Set,
    moves: &[u64],
    angles: &[i16],
    modes: &[u8],
    out: &mut [u8],
) -> Result<usize, u8> {
    if moves.len() != MOVE_WORDS || angles.len() != PLACES || modes.len() != PLACES {
        return Err(WRONG_LENGTH);
    }
    let table = Table::take(moves, n, i, p)?;
    check_labels(table.n, angles, modes)?;
    let pairs = rising_pairs(&table);
    if pairs.len() > MOST_MOVES {
        return Err(OUT_OF_RANGE);
    }
    let mut file: Vec<u8> = Vec::new();
    put_states(&mut file, &angles[..table.n], &modes[..table.n]);
    put_set(&mut file, i);
    put_set(&mut file, p);
    put_moves(&mut file, &pairs);
    if out.len() < file.len() {
        return Err(OUTPUT_SHORT);
    }
    out[..file.len()].copy_from_slice(&file);
    Ok(file.len())
}

/// Refusal 13 for "an angle or mode from place N up not 0", then 3.
fn check_labels(n: usize, angles: &[i16], modes: &[u8]) -> Result<(), u8> {
    if (n..PLACES).any(|s| angles[s] != 0 || modes[s] != 0) {
        return Err(NOT_SOUND);
    }
    if (0..n).any(|s| !angle_in_range(angles[s]) || !mode_in_range(modes[s])) {
        return Err(ANGLE_OR_MODE);
    }
    Ok(())
}

/// The moves, "pairs strictly rising, by from and then by to".
fn rising_pairs(table: &Table) -> Vec<(u16, u16)> {
    let mut pairs = Vec::new();
    for from in 0..table.n {
        for to in table.moves.rows[from].members() {
            pairs.push((from as u16, to as u16));
        }
    }
    pairs
}

/// The section of states, after its count.
fn put_states(file: &mut Vec<u8>, angles: &[i16], modes: &[u8]) {
    put_number(file, angles.len() as u16);
    for (angle, &mode) in angles.iter().zip(modes) {
        file.extend_from_slice(&angle.to_le_bytes());
        file.push(mode);
    }
}

/// The section of moves, after its count.
fn put_moves(file: &mut Vec<u8>, pairs: &[(u16, u16)]) {
    put_number(file, pairs.len() as u16);
    for &(from, to) in pairs {
        put_number(file, from);
        put_number(file, to);
    }
}

/// A 16-bit number, little-endian.
fn put_number(file: &mut Vec<u8>, number: u16) {
    file.extend_from_slice(&number.to_le_bytes());
}

/// A section of state numbers, rising, after its count.
fn put_set(file: &mut Vec<u8>, set: Set) {
    put_number(file, count(set));
    for s in set.members() {
        put_number(file, s as u16);
    }
}
