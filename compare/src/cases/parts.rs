//! Runs in two parts, against one run, and the verdict of a run that has ended.

use super::runs::{ask, enough, needed, note};
use crate::calls::runs::{self, Asked, Ran};
use crate::given::Start;
use crate::{Agreed, Case};
use independent::random::Random;
use independent::Outcome;

pub fn parts(case: &mut Case) -> Agreed<()> {
    let start = Start::any(&mut case.random);
    let mut asked = ask(&mut case.random, &start);
    asked.budget = enough(&asked);
    let (b1, b2) = two_budgets(&mut case.random, needed(&asked));
    in_two_parts(case, asked, b1, b2)
}

/// Two budgets, mostly with about the sum that is needed.
fn two_budgets(random: &mut Random, needed: u64) -> (u64, u64) {
    let first = random.below(needed as usize + 1) as u64;
    let rest = needed - first;
    match random.below(8) {
        0..=2 => (first, rest),
        3 => (first, rest.saturating_sub(1)),
        4 => (needed, random.below(3) as u64),
        5 => (first, random.below(needed as usize + 2) as u64),
        // A sum that is the largest number, and one that is none.
        6 if needed < 300 => (first, u64::MAX - first),
        7 if needed < 300 => (first + 1, u64::MAX - first),
        _ => (0, needed),
    }
}

/// b1, then b2 with the hints that remain, and b1 + b2 at once.
pub fn in_two_parts(case: &mut Case, mut asked: Asked, b1: u64, b2: u64) -> Agreed<()> {
    asked.budget = b1;
    let first = runs::run(case, &asked)?;
    note(case, &asked, &first);
    let taken = first.answer.hints_taken as usize;
    let mut then = asked.clone();
    then.run = first.run.clone();
    then.hints.drain(..4 * taken);
    then.budget = b2;
    then.set = first.set.clone();
    then.walk = first.walk.clone();
    let second = runs::run(case, &then)?;
    match b1.checked_add(b2) {
        None => case.seen.also("parts", "no sum"),
        Some(sum) => {
            asked.budget = sum;
            let whole = runs::run(case, &asked)?;
            as_one(&first, &second, &whole)?;
            case.seen.also("parts", "two as one");
        }
    }
    at_the_end(case, then, second)
}

/// The two end as the whole does, the numbers added.
fn as_one(first: &Ran, second: &Ran, whole: &Ran) -> Agreed<()> {
    let added = |number: fn(&Ran) -> u64| number(first) + number(second) == number(whole);
    let same = second.answer.outcome == whole.answer.outcome
        && added(|ran| ran.answer.rules_fired)
        && added(|ran| ran.answer.hints_taken)
        && added(|ran| ran.answer.hints_used)
        && (&second.run, &second.set, &second.walk) == (&whole.run, &whole.set, &whole.walk);
    if same {
        return Ok(());
    }
    let (first, second, whole) = (first.answer, second.answer, whole.answer);
    Err(format!(
        "call run\ntwo parts {first:?} and {second:?}, the whole {whole:?}"
    ))
}

/// A run that has concluded gives its verdict again for a budget of 0.
fn at_the_end(case: &mut Case, mut asked: Asked, ended: Ran) -> Agreed<()> {
    if ended.answer.outcome == Outcome::Unfinished {
        return Ok(());
    }
    asked.run = ended.run;
    asked.budget = 0;
    let again = runs::run(case, &asked)?;
    if again.answer.outcome != ended.answer.outcome || again.answer.rules_fired != 0 {
        let (ended, again) = (ended.answer, again.answer);
        return Err(format!("call run\nended as {ended:?}, then {again:?}"));
    }
    case.seen.also("parts", "budget 0 at the end");
    Ok(())
}
