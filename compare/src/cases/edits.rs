//! The second table, and edits of both tables.

use super::moves::argument;
use crate::calls::edits::{self, Edited};
use crate::given::{model, other_length, state_number, two_states, Both};
use crate::lent::any;
use crate::{Agreed, Case};
use independent::make::{self, Model};
use independent::random::Random;
use independent::refusal::NOTHING_TO_EDIT;
use independent::second::SECOND_WORDS;

/// The second table made, over anything, of tables that may be damaged.
pub fn second(case: &mut Case) -> Agreed<()> {
    let random = &mut case.random;
    let mut model = model(random);
    if random.chance(1, 2) {
        model = make::damaged_model(random, &model);
    }
    let mut both = Both::of(&model);
    both.second = any(random, SECOND_WORDS);
    if random.chance(1, 8) {
        other_length(random, &mut both.moves);
    }
    if random.chance(1, 8) {
        other_length(random, &mut both.second);
    }
    edits::second(case, &both).map(drop)
}

pub fn into(case: &mut Case) -> Agreed<()> {
    let random = &mut case.random;
    let model = model(random);
    let both = any_both(random, &model);
    let state = state_number(random, model.n);
    edits::into(case, &both, state)
}

/// "g may be worked out from the new rows and must equal the old g."
pub fn g_by_second(case: &mut Case) -> Agreed<()> {
    let random = &mut case.random;
    let model = model(random);
    let both = any_both(random, &model);
    let x = argument(random, &model);
    let found = edits::g_by_second(case, &both, x)?;
    if found.is_ok() && found != independent::backward(&both.moves, both.n, x) {
        return Err("call g by second\nit is not g".into());
    }
    Ok(())
}

/// Both tables, in half of the cases with something wrong.
fn any_both(random: &mut Random, model: &Model) -> Both {
    if random.chance(1, 2) {
        Both::spoiled(random, model)
    } else {
        Both::of(model)
    }
}

/// A move added or removed; one in four is an edit that would change nothing.
pub fn edit(case: &mut Case) -> Agreed<()> {
    let random = &mut case.random;
    let model = model(random);
    let both = any_both(random, &model);
    let (from, to) = any_two(random, &model);
    // Of numbers from N up, one or the other.
    let there = if from.max(to) < model.n {
        model.has_move(from.into(), to.into())
    } else {
        random.chance(1, 2)
    };
    let remove = there == random.chance(3, 4);
    one_edit(case, remove, &both, from, to).map(drop)
}

/// Two state numbers, most often below N.
fn any_two(random: &mut Random, model: &Model) -> (u16, u16) {
    if random.chance(2, 3) {
        return two_states(random, model);
    }
    (state_number(random, model.n), state_number(random, model.n))
}

fn one_edit(case: &mut Case, remove: bool, both: &Both, from: u16, to: u16) -> Agreed<Edited> {
    let call = if remove { edits::remove } else { edits::add };
    call(case, both, from, to)
}

/// The move removed where it is there, and added where it is not.
pub fn turned_over(case: &mut Case, both: &Both, from: u16, to: u16) -> Agreed<Both> {
    let there = both.has_move(from, to);
    let edited = one_edit(case, there, both, from, to)?;
    edited.map_err(|refusal| format!("an edit that can be made was refused with {refusal}"))
}

/// Edits of the same two tables, one on what the other left, then all of them taken back.
pub fn several(case: &mut Case) -> Agreed<()> {
    let mut model = model(&mut case.random);
    let first = Both::of(&model);
    let mut both = first.clone();
    let mut done = Vec::new();
    for _ in 0..case.random.between(2, 8) {
        model.moves = both.moves.clone();
        let (from, to) = two_states(&mut case.random, &model);
        if case.random.chance(1, 4) {
            let there = both.has_move(from, to);
            if one_edit(case, !there, &both, from, to)? != Err(NOTHING_TO_EDIT) {
                return Err("an edit that changes nothing was not refused with 15".into());
            }
        }
        both = turned_over(case, &both, from, to)?;
        edits::into(case, &both, to)?;
        done.push((from, to));
    }
    in_step(case, &both)?;
    for (from, to) in done.into_iter().rev() {
        both = turned_over(case, &both, from, to)?;
    }
    if both != first {
        return Err("edits taken back left other tables than at first".into());
    }
    case.seen.also("edits", "taken back");
    Ok(())
}

/// The second table is still the one that is made of the moves.
pub fn in_step(case: &mut Case, both: &Both) -> Agreed<()> {
    let mut anew = both.clone();
    anew.second = any(&mut case.random, SECOND_WORDS);
    if edits::second(case, &anew)?.as_ref() != Ok(both) {
        return Err("call second\nit makes another table than the edits left".into());
    }
    case.seen.also("edits", "second table in step");
    Ok(())
}
