//! One comparison of one call: the library and the independent program on the same input.

pub mod edits;
pub mod files;
pub mod listings;
pub mod moves;
pub mod runs;
pub mod sets;

use crate::{Agreed, Case};
use std::fmt::Display;

/// How a call that was refused, or not, is counted.
const REFUSALS: [&str; 16] = [
    "done", "1", "2", "3", "4", "5", "6", "7", "8", "9", "10", "11", "12", "13", "14", "15",
];

fn refusal_name(number: u8) -> &'static str {
    REFUSALS[usize::from(number)]
}

fn same<T: PartialEq + Display>(name: &str, found: T, expected: T) -> Agreed<()> {
    if found == expected {
        return Ok(());
    }
    Err(format!("{name}: library {found}, independent {expected}"))
}

/// Counts a call whose parts all agree, or says which first part does not.
fn compared<const PARTS: usize>(
    case: &mut Case,
    call: &str,
    outcome: &str,
    parts: [Agreed<()>; PARTS],
    given: impl FnOnce() -> String,
) -> Agreed<()> {
    let agreed: Agreed<()> = parts.into_iter().collect();
    match agreed {
        Ok(()) => {
            case.seen.call(call, outcome);
            Ok(())
        }
        Err(what) => Err(format!("call {call}\n{what}\ngiven {}", given())),
    }
}
