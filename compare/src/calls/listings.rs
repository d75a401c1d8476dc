//! The listing of a file.

use super::{compared, same};
use crate::boundary::Output;
use crate::lent::{any, Lent};
use crate::{boundary, show, Agreed, Case};
use independent::refusal::OUTPUT_SHORT;

/// Which of the three listings a text is.
fn kind(text: &str) -> &'static str {
    let verdict = text.lines().nth(1).unwrap_or("refused");
    ["safe", "reached", "refused"]
        .into_iter()
        .find(|word| verdict.starts_with(word))
        .expect("a listing")
}

/// Lists a file whose listing is the text, into an output of so many bytes.
pub fn check(case: &mut Case, file: &[u8], text: &str, room: usize) -> Agreed<()> {
    let mut out: Vec<u8> = any(&mut case.random, room);
    let mut length: Vec<usize> = any(&mut case.random, 1);
    let mut lent_file = Lent::of(file);
    let mut to = Output {
        out: Lent::of(&out),
        length: Lent::of(&length),
    };
    let found = boundary::check(&mut lent_file, &mut to);

    let fits = text.len() <= room;
    if fits {
        out[..text.len()].copy_from_slice(text.as_bytes());
        length[0] = text.len();
    }
    let parts = [
        same("answer", found, if fits { 0 } else { OUTPUT_SHORT }),
        to.length.holds("length", &length),
        to.out.holds("out", &out),
        lent_file.holds("file", file),
    ];
    let outcome = if fits { kind(text) } else { "12" };
    compared(case, "check", outcome, parts, || {
        format!("{}, out of {room}", show::bytes(file))
    })
}
