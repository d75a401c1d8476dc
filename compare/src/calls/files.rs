//! `read` and `write`.

use super::{compared, refusal_name, same};
use crate::boundary::Output;
use crate::lent::{any, Lent, LentStates, LentTable};
use crate::{boundary, show, Agreed, Case};
use independent::file::ReadRefusal;
use independent::make::Model;
use independent::refusal::OUT_OF_RANGE;

/// A table that was read, and its number of moves.
pub type Taken = (Model, u16);

/// Reads a file into the places of `before`. Gives what was read, or the refusal and its offset.
pub fn read(case: &mut Case, file: &[u8], before: &Model) -> Agreed<Result<Taken, ReadRefusal>> {
    let counts_before: Vec<u16> = any(&mut case.random, 2);
    let offset_before: Vec<usize> = any(&mut case.random, 1);
    let mut lent_file = Lent::of(file);
    let (mut table, mut states) = (LentTable::of(before), LentStates::of(before));
    let (mut counts, mut offset) = (Lent::of(&counts_before), Lent::of(&offset_before));
    let number = boundary::read(
        &mut lent_file,
        &mut table,
        &mut states,
        &mut counts,
        &mut offset,
    );

    let taken = read_by_independent(file, before);
    let (refusal, offset_after) = taken.as_ref().err().copied().unwrap_or((0, 0));
    let (after, counts_after) = match &taken {
        Ok((model, moves)) => (model, vec![model.n, *moves]),
        Err(_) => (before, counts_before),
    };
    let parts = [
        same("answer", number, refusal),
        offset.holds("offset", &[offset_after]),
        counts.holds("counts", &counts_after),
        table.holds(after),
        states.holds(after),
        lent_file.holds("file", file),
    ];
    compared(case, "read", refusal_name(refusal), parts, || {
        let (moves, angles, modes) = (before.moves.len(), before.angles.len(), before.modes.len());
        format!(
            "{}, {moves} words of moves, {angles} angles, {modes} modes",
            show::bytes(file)
        )
    })?;
    Ok(taken)
}

fn read_by_independent(file: &[u8], before: &Model) -> Result<Taken, ReadRefusal> {
    let mut model = before.clone();
    let Model {
        moves,
        angles,
        modes,
        ..
    } = &mut model;
    let read = independent::read(file, moves, angles, modes)?;
    model.n = read.n;
    model.i = read.starts;
    model.p = read.safe;
    Ok((model, read.moves as u16))
}

/// Writes the table's file to a place that holds `before`. Gives the file, if it was written.
pub fn write(case: &mut Case, model: &Model, before: &[u8]) -> Agreed<Option<Vec<u8>>> {
    let length_before: Vec<usize> = any(&mut case.random, 1);
    let (mut table, mut states) = (LentTable::of(model), LentStates::of(model));
    let mut to = Output {
        out: Lent::of(before),
        length: Lent::of(&length_before),
    };
    let number = boundary::write(&mut table, &mut states, &mut to);

    let mut after = before.to_vec();
    let Model {
        n,
        i,
        p,
        moves,
        angles,
        modes,
    } = model;
    let written = independent::write(*n, *i, *p, moves, angles, modes, &mut after);
    let refusal = written.err().unwrap_or(0);
    let length_after = written.map_or(length_before, |length| vec![length]);
    let parts = [
        same("answer", number, refusal),
        to.length.holds("length", &length_after),
        to.out.holds("out", &after),
        table.holds(model),
        states.holds(model),
    ];
    compared(case, "write", write_outcome(model, refusal), parts, || {
        let (table, states) = (show::table(model), show::states(model));
        format!("{table}, {states}, out of {}", before.len())
    })?;
    Ok(written.ok().map(|length| after[..length].to_vec()))
}

/// Writing refuses with 2 at two places of its order.
fn write_outcome(model: &Model, refusal: u8) -> &'static str {
    match (refusal, model.n) {
        (OUT_OF_RANGE, 1..=256) => "2 for moves",
        (OUT_OF_RANGE, _) => "2 for N",
        _ => refusal_name(refusal),
    }
}
