//! "Keep a second table of 1,024 words beside the move table, row t holding
//! the states with a move to t."

use crate::refusal::{DISAGREE, NOTHING_TO_EDIT, NOT_SOUND, STATE_NUMBER, WRONG_LENGTH};
use crate::set::{Set, PLACES};
use crate::table::{rows_of, sound_moves, Moves};

/// The words of a second table.
pub const SECOND_WORDS: usize = 1024;

/// Make the second table; what it held before does not matter.  Refusals 7,
/// 2, 13 in that order.
pub fn second(moves: &[u64], n: u16, second: &mut [u64]) -> Result<(), u8> {
    let moves = moves_beside(second, moves, n)?;
    second.fill(0);
    for s in 0..PLACES {
        for t in 0..PLACES {
            if moves.rows[s].member(t) {
                flip(second, t, s);
            }
        }
    }
    Ok(())
}

/// "which states move into it?"  Refusals 7, 2, 13, 14, 4 in that order.
pub fn into(moves: &[u64], second: &[u64], n: u16, state: u16) -> Result<Set, u8> {
    let moves = moves_beside(second, moves, n)?;
    let leading_to = rows_in_step(second, &moves)?;
    let state = state_number(state, moves.n)?;
    Ok(leading_to[state])
}

/// Add a move.  Refusals 7, 2, 13, 14, 4, 15 in that order.
pub fn add(moves: &mut [u64], second: &mut [u64], n: u16, from: u16, to: u16) -> Result<(), u8> {
    edit(moves, second, n, (from, to), false)
}

/// Remove a move.  Refusals 7, 2, 13, 14, 4, 15 in that order.
pub fn remove(moves: &mut [u64], second: &mut [u64], n: u16, from: u16, to: u16) -> Result<(), u8> {
    edit(moves, second, n, (from, to), true)
}

/// "g may be worked out from the new rows and must equal the old g": the full
/// set less every state with a move to a state outside X.  Refusals 7, 2, 13,
/// 14 in that order.
pub fn backward_by_second(moves: &[u64], second: &[u64], n: u16, x: Set) -> Result<Set, u8> {
    let moves = moves_beside(second, moves, n)?;
    if moves.holds_number_from_n_up(x) {
        return Err(NOT_SOUND);
    }
    let leading_to = rows_in_step(second, &moves)?;
    let mut all_end_in_x = moves.full;
    for t in moves.full.minus(x).members() {
        all_end_in_x = all_end_in_x.minus(leading_to[t]);
    }
    Ok(all_end_in_x)
}

/// The moves of a call that is lent a second table too: "7 also for a second
/// table not of 1,024 words".  Refusals 7, 2, 13 in that order.
fn moves_beside(second: &[u64], moves: &[u64], n: u16) -> Result<Moves, u8> {
    if second.len() != SECOND_WORDS {
        return Err(WRONG_LENGTH);
    }
    sound_moves(moves, n)
}

/// The rows of the second table: "14 when the two tables disagree in any row
/// or column up to 255".
fn rows_in_step(second: &[u64], moves: &Moves) -> Result<Vec<Set>, u8> {
    let leading_to = rows_of(second);
    let agree = |s: usize, t: usize| moves.rows[s].member(t) == leading_to[t].member(s);
    if (0..PLACES).all(|s| (0..PLACES).all(|t| agree(s, t))) {
        Ok(leading_to)
    } else {
        Err(DISAGREE)
    }
}

/// "4 ... for a state number of N or more"
fn state_number(state: u16, n: usize) -> Result<usize, u8> {
    let state = usize::from(state);
    if state < n {
        Ok(state)
    } else {
        Err(STATE_NUMBER)
    }
}

/// Add or remove a move, which must not be there, or be there, before: "both
/// tables kept in step, every other bit the same".
fn edit(
    moves: &mut [u64],
    second: &mut [u64],
    n: u16,
    (from, to): (u16, u16),
    there_before: bool,
) -> Result<(), u8> {
    let held = moves_beside(second, moves, n)?;
    rows_in_step(second, &held)?;
    let from = state_number(from, held.n)?;
    let to = state_number(to, held.n)?;
    if held.rows[from].member(to) != there_before {
        return Err(NOTHING_TO_EDIT);
    }
    flip(moves, from, to);
    flip(second, to, from);
    Ok(())
}

/// The member put into the row or taken out of it.
fn flip(table: &mut [u64], row: usize, member: usize) {
    table[4 * row + member / 64] ^= 1 << (member % 64);
}
