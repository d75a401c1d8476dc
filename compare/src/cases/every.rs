//! Whole ranges, one after the other: what a random case might not meet.

use super::edits::{in_step, turned_over};
use crate::calls::edits::Edited;
use crate::calls::{edits, files, moves, runs, sets};
use crate::given::{tallest, Both, Start};
use crate::lent::any;
use crate::{Agreed, Case};
use independent::make::{self, Model};
use independent::refusal::DISAGREE;
use independent::rules::Run;
use independent::run_buffer::RUN_WORDS;
use independent::set::PLACES;
use independent::table::MOVE_WORDS;
use independent::Set;

pub fn full(case: &mut Case) -> Agreed<()> {
    for n in 0..=300 {
        sets::full(case, n)?;
    }
    Ok(())
}

pub fn fresh(case: &mut Case) -> Agreed<()> {
    let before: Vec<u64> = any(&mut case.random, RUN_WORDS);
    for n in 0..=300 {
        runs::fresh(case, n, &before)?;
    }
    Ok(())
}

/// The comparisons that `turn` makes.
pub const PAIRS_OF_ANGLES: u64 = 360 * 360;

/// The turn from each angle, -180 to 179, to each.
pub fn turn(case: &mut Case) -> Agreed<()> {
    for a in -180..180 {
        for b in -180..180 {
            sets::turn(case, a, b)?;
        }
    }
    case.seen.also("turns", "every pair of angles");
    Ok(())
}

pub fn end_of_turns(case: &mut Case) -> Agreed<()> {
    let ends = [
        -32768, -361, -181, -180, -179, -1, 0, 1, 178, 179, 180, 360, 32767,
    ];
    for a in ends {
        for b in ends {
            sets::turn(case, a, b)?;
        }
    }
    Ok(())
}

/// A bit changed in each word of a move table, where it may lie from N up or not.
pub fn word_of_a_move_table(case: &mut Case) -> Agreed<()> {
    let model = make::chain(100);
    for at in 0..MOVE_WORDS {
        let mut words = model.moves.clone();
        words[at] ^= 1 << case.random.below(64);
        let x = make::some_within(&mut case.random, model.p);
        moves::f_and_g(case, &words, model.n, x)?;
    }
    Ok(())
}

/// A bit changed in each word of a fresh run buffer and of the longest.
pub fn word_of_a_run_buffer(case: &mut Case) -> Agreed<()> {
    let fresh = Start::of(make::chain(64), Run::fresh(64));
    let mut model = make::chain(256);
    model.i = Set::EMPTY;
    let tallest = tallest(&model).expect("a table without starts");
    for start in [fresh, Start::of(model, tallest)] {
        for at in 0..RUN_WORDS {
            let mut words = start.words.clone();
            words[at] ^= 1 << case.random.below(64);
            runs::single(case, &start.model, &words, start.model.p)?;
        }
    }
    Ok(())
}

/// n and k in and out of range, all sets empty: without starts nothing else is amiss.
pub fn count_of_a_run_buffer(case: &mut Case) -> Agreed<()> {
    for states in [1, 3, 255, 256] {
        let model = Model::blank(states);
        let near = states as u64 + 2;
        let high = [1 << 16, 1 << 32, 1 << 63].map(|bit| bit + 2);
        let counts = [
            &[0, 1, 2, 3, near - 1, near, near + 1, 258, 259, u64::MAX],
            &high[..],
        ];
        for n in counts.concat() {
            let ks = [
                0,
                1,
                2,
                n.wrapping_sub(1),
                n,
                n.wrapping_add(1),
                n ^ (1 << 32),
            ];
            for k in ks {
                let mut words = vec![0; RUN_WORDS];
                words[0] = n;
                words[1] = k;
                runs::single(case, &model, &words, Set::EMPTY)?;
            }
        }
    }
    Ok(())
}

/// An angle and a mode changed at each place, to write: of a state, or from N up.
pub fn place_of_the_states(case: &mut Case) -> Agreed<()> {
    let model = make::chain(100);
    let out = vec![0; model.file().len()];
    for s in 0..PLACES {
        let mut changed = model.clone();
        changed.angles[s] = case.random.one_of(&[-181, -180, 179, 180]);
        files::write(case, &changed, &out)?;
        changed.angles[s] = 0;
        changed.modes[s] = case.random.one_of(&[15, 16]);
        files::write(case, &changed, &out)?;
    }
    Ok(())
}

/// A bit changed in each word of a second table, so that it no longer agrees.
pub fn word_of_a_second_table(case: &mut Case) -> Agreed<()> {
    let right = Both::of(&make::chain(100));
    for at in 0..MOVE_WORDS {
        let mut both = right.clone();
        both.second[at] ^= 1 << case.random.below(64);
        disagree(edits::remove(case, &both, 0, 1)?)?;
    }
    Ok(())
}

/// "when the two tables disagree in any row or column up to 255": each bit of row 255, column 255 and the diagonal.
pub fn line_of_a_second_table(case: &mut Case) -> Agreed<()> {
    let right = Both::of(&make::chain(3));
    for at in 0..PLACES {
        for (row, column) in [(255, at), (at, 255), (at, at)] {
            let mut both = right.clone();
            both.second[4 * row + column / 64] ^= 1 << (column % 64);
            disagree(edits::add(case, &both, 0, 2)?)?;
        }
    }
    Ok(())
}

/// Each of 256 states as the one that a move leaves and the one that it leads to, in edits one on what the other left.
pub fn state_of_an_edit(case: &mut Case) -> Agreed<()> {
    let mut both = Both::of(&Model::blank(PLACES));
    for s in 0..=255 {
        for (from, to) in [(s, 255 - s), (255, s), (s, 255)] {
            both = turned_over(case, &both, from, to)?;
        }
    }
    for s in 0..=255 {
        edits::into(case, &both, s)?;
    }
    in_step(case, &both)
}

fn disagree(edited: Edited) -> Agreed<()> {
    match edited {
        Err(DISAGREE) => Ok(()),
        _ => Err("tables that disagree were not refused with 14".into()),
    }
}
