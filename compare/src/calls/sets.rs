//! `full`, `count`, `smallest` and `turn`.

use super::{compared, refusal_name, same};
use crate::lent::{any, lent_set, Lent};
use crate::{boundary, show, Agreed, Case};
use independent::Set;

/// What `smallest` answers for the empty set.
const NO_MEMBER: u16 = 256;

pub fn full(case: &mut Case, n: u16) -> Agreed<()> {
    let before: Vec<u64> = any(&mut case.random, 4);
    let mut set = Lent::of(&before);
    let number = boundary::full(n, &mut set);
    let (expected, after) = match independent::full(n) {
        Ok(full) => (0, full.0.to_vec()),
        Err(refusal) => (refusal, before),
    };
    let parts = [same("answer", number, expected), set.holds("set", &after)];
    compared(case, "full", refusal_name(expected), parts, || {
        format!("n {n}")
    })
}

pub fn count(case: &mut Case, of: Set) -> Agreed<()> {
    let mut set = lent_set(of);
    let found = boundary::count(&mut set);
    let parts = [
        same("answer", found, independent::count(of)),
        set.holds("set", &of.0),
    ];
    compared(case, "count", "done", parts, || show::set(of))
}

pub fn smallest(case: &mut Case, of: Set) -> Agreed<()> {
    let mut set = lent_set(of);
    let found = boundary::smallest(&mut set);
    let expected = independent::smallest(of);
    let outcome = if expected.is_some() { "member" } else { "none" };
    let expected = expected.unwrap_or(NO_MEMBER);
    let parts = [same("answer", found, expected), set.holds("set", &of.0)];
    compared(case, "smallest", outcome, parts, || show::set(of))
}

pub fn turn(case: &mut Case, a: i16, b: i16) -> Agreed<()> {
    let before: Vec<i16> = any(&mut case.random, 1);
    let mut turn = Lent::of(&before);
    let number = boundary::turn(a, b, &mut turn);
    let (expected, outcome, after) = match independent::turn(a, b) {
        Ok(turned) => (0, turn_name(turned), vec![turned]),
        Err(refusal) => (refusal, refusal_name(refusal), before),
    };
    let parts = [same("answer", number, expected), turn.holds("turn", &after)];
    compared(case, "turn", outcome, parts, || format!("a {a}, b {b}"))
}

fn turn_name(turned: i16) -> &'static str {
    match turned {
        180 => "180",
        -180 => "-180",
        _ => "other",
    }
}
