//! `second`, `into`, `add`, `remove` and g by the second table.

use super::{compared, refusal_name, same};
use crate::given::Both;
use crate::lent::{any, lent_set, Lent, LentBoth};
use crate::{boundary, show, Agreed, Case};
use independent::Set;

/// Both tables after a call that was not refused, or the refusal.
pub type Edited = Result<Both, u8>;

/// Makes the second table, over what its place held before.
pub fn second(case: &mut Case, before: &Both) -> Agreed<Edited> {
    let mut lent = LentBoth::of(before);
    let number = boundary::second(&mut lent);
    let mut after = before.clone();
    let made = independent::second(&after.moves, after.n, &mut after.second);
    changed(case, "second", (number, lent), made, after, || {
        show::both(before)
    })
}

type LibraryEdit = fn(&mut LentBoth, u16, u16) -> u8;
type IndependentEdit = fn(&mut [u64], &mut [u64], u16, u16, u16) -> Result<(), u8>;

pub fn add(case: &mut Case, before: &Both, from: u16, to: u16) -> Agreed<Edited> {
    let calls = (
        boundary::add as LibraryEdit,
        independent::add as IndependentEdit,
    );
    edit(case, "add", calls, before, (from, to))
}

pub fn remove(case: &mut Case, before: &Both, from: u16, to: u16) -> Agreed<Edited> {
    let calls = (
        boundary::remove as LibraryEdit,
        independent::remove as IndependentEdit,
    );
    edit(case, "remove", calls, before, (from, to))
}

fn edit(
    case: &mut Case,
    call: &str,
    (library, independent): (LibraryEdit, IndependentEdit),
    before: &Both,
    (from, to): (u16, u16),
) -> Agreed<Edited> {
    let mut lent = LentBoth::of(before);
    let number = library(&mut lent, from, to);
    let mut after = before.clone();
    let done = independent(&mut after.moves, &mut after.second, after.n, from, to);
    changed(case, call, (number, lent), done, after, || {
        format!("from {from}, to {to}, {}", show::both(before))
    })
}

/// Compares what a call answered and left of both tables.
fn changed(
    case: &mut Case,
    call: &str,
    (number, lent): (u8, LentBoth),
    expected: Result<(), u8>,
    after: Both,
    given: impl FnOnce() -> String,
) -> Agreed<Edited> {
    let refusal = expected.err().unwrap_or(0);
    let parts = [same("answer", number, refusal), lent.holds(&after)];
    compared(case, call, refusal_name(refusal), parts, given)?;
    Ok(expected.map(|()| after))
}

pub fn into(case: &mut Case, both: &Both, state: u16) -> Agreed<()> {
    let before: Vec<u64> = any(&mut case.random, 4);
    let (mut lent, mut result) = (LentBoth::of(both), Lent::of(&before));
    let number = boundary::into(&mut lent, state, &mut result);
    let found = independent::into(&both.moves, &both.second, both.n, state);
    let (refusal, after) = answered(found, before);
    let parts = [
        same("answer", number, refusal),
        result.holds("result", &after),
        lent.holds(both),
    ];
    compared(case, "into", refusal_name(refusal), parts, || {
        format!("state {state}, {}", show::both(both))
    })
}

/// Gives the set, or the refusal.
pub fn g_by_second(case: &mut Case, both: &Both, x: Set) -> Agreed<Result<Set, u8>> {
    let before: Vec<u64> = any(&mut case.random, 4);
    let (mut lent, mut result) = (LentBoth::of(both), Lent::of(&before));
    let mut lent_x = lent_set(x);
    let number = boundary::g_by_second(&mut lent, &mut lent_x, &mut result);
    let found = independent::backward_by_second(&both.moves, &both.second, both.n, x);
    let (refusal, after) = answered(found, before);
    let parts = [
        same("answer", number, refusal),
        result.holds("result", &after),
        lent_x.holds("x", &x.0),
        lent.holds(both),
    ];
    compared(case, "g by second", refusal_name(refusal), parts, || {
        format!("x {}, {}", show::set(x), show::both(both))
    })?;
    Ok(found)
}

/// The refusal, 0 for none, and the four words of the result after the call.
fn answered(found: Result<Set, u8>, before: Vec<u64>) -> (u8, Vec<u64>) {
    match found {
        Ok(set) => (0, set.0.to_vec()),
        Err(refusal) => (refusal, before),
    }
}
