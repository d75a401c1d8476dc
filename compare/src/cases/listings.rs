//! The listings of files.

use super::files::file_model;
use crate::calls::listings::check;
use crate::{Agreed, Case};
use independent::make;

pub fn of_a_file(case: &mut Case) -> Agreed<()> {
    let random = &mut case.random;
    let file = match random.below(4) {
        0 => make::any_file(random),
        1 => file_model(random).file(),
        _ => make::small_model(random, 16).file(),
    };
    list(case, &file)
}

/// The listing in an output that is exact, one too short, longer, any that is too short.
pub fn list(case: &mut Case, file: &[u8]) -> Agreed<()> {
    let text = independent::listing(file);
    let exact = text.len();
    let more = exact + case.random.between(1, 60);
    let less = case.random.below(exact);
    for room in [exact, exact - 1, more, less] {
        check(case, file, &text, room)?;
    }
    Ok(())
}
