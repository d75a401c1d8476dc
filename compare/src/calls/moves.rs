//! `f` and `g`.

use super::{compared, refusal_name, same};
use crate::lent::{any, lent_set, Lent};
use crate::{boundary, show, Agreed, Case};
use independent::Set;

/// Both on one input.
pub fn f_and_g(case: &mut Case, moves: &[u64], n: u16, x: Set) -> Agreed<()> {
    step(case, "f", boundary::f, independent::forward, (moves, n, x))?;
    step(case, "g", boundary::g, independent::backward, (moves, n, x))
}

type Library = fn(&mut Lent<u64>, u16, &mut Lent<u64>, &mut Lent<u64>) -> u8;
type Independent = fn(&[u64], u16, Set) -> Result<Set, u8>;

fn step(
    case: &mut Case,
    call: &str,
    library: Library,
    independent: Independent,
    (moves, n, x): (&[u64], u16, Set),
) -> Agreed<()> {
    let before: Vec<u64> = any(&mut case.random, 4);
    let mut lent_moves = Lent::of(moves);
    let mut lent_x = lent_set(x);
    let mut result = Lent::of(&before);
    let number = library(&mut lent_moves, n, &mut lent_x, &mut result);
    let (expected, after) = match independent(moves, n, x) {
        Ok(set) => (0, set.0.to_vec()),
        Err(refusal) => (refusal, before),
    };
    let parts = [
        same("answer", number, expected),
        result.holds("result", &after),
        lent_x.holds("x", &x.0),
        lent_moves.holds("moves", moves),
    ];
    let given = || format!("N {n}, x {}, {}", show::set(x), show::moves(moves));
    compared(case, call, refusal_name(expected), parts, given)
}
