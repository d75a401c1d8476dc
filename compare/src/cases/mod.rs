//! The cases: random ones in fixed shares, and some that every seed has.

mod edits;
mod every;
mod files;
mod fixed;
mod kept;
mod listings;
mod moves;
mod parts;
mod rules;
mod runs;
mod sets;

pub use every::PAIRS_OF_ANGLES;

use crate::{Agreed, Case};

type Kind = fn(&mut Case) -> Agreed<()>;

/// The cases that every seed has.
const FIXED: [Kind; 17] = [
    fixed::tables_of_the_document,
    fixed::longest_file,
    fixed::longest_listings,
    fixed::long_chain,
    fixed::ladders,
    every::full,
    every::fresh,
    every::turn,
    every::end_of_turns,
    every::word_of_a_move_table,
    every::word_of_a_run_buffer,
    every::count_of_a_run_buffer,
    every::place_of_the_states,
    every::word_of_a_second_table,
    every::line_of_a_second_table,
    every::state_of_an_edit,
    kept::by_hand,
];

/// So far apart the fixed cases stand, at first, among the random ones.
const APART: u64 = 100;

/// How many of a thousand cases are of which kind.
const SHARES: [(u64, Kind); 23] = [
    (40, sets::set_calls),
    (30, sets::turns),
    (90, moves::any_step),
    (30, moves::hard_step),
    (20, rules::fresh),
    (115, rules::single),
    (60, rules::singles),
    (20, rules::entry_check),
    (145, runs::run),
    (50, runs::hard_run),
    (70, parts::parts),
    (90, files::read),
    (3, files::cut_at_each_place),
    (4, files::changed_at_each_place),
    (56, files::write),
    (17, files::there_and_back),
    (30, listings::of_a_file),
    (20, edits::second),
    (22, edits::into),
    (44, edits::edit),
    (20, edits::g_by_second),
    (4, edits::several),
    (20, kept::any_run),
];

/// Runs the case of this number.
pub fn run(case: &mut Case, number: u64) -> Agreed<()> {
    match (FIXED.get((number / APART) as usize), number % APART) {
        (Some(kind), 0) => kind(case),
        _ => random_kind(number)(case),
    }
}

fn random_kind(number: u64) -> Kind {
    // Spread over the thousand, so that the kinds alternate.
    let mut at = number % 1000 * 377 % 1000;
    for (share, kind) in SHARES {
        if at < share {
            return kind;
        }
        at -= share;
    }
    unreachable!("the shares make a thousand")
}
