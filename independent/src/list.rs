//! The listing: what the program `check` prints for a file.

use crate::angle::turn;
use crate::file::{read, Read};
use crate::run_buffer::RUN_WORDS;
use crate::search::{fresh, run, Outcome, RunAnswer, SET_WORDS, WALK_NUMBERS};
use crate::set::{count, Set, PLACES};
use crate::table::MOVE_WORDS;

/// All that `check` prints; every line, the last too, ends with a newline.
pub fn listing(file: &[u8]) -> String {
    let mut moves = [0; MOVE_WORDS];
    let mut angles = [0; PLACES];
    let mut modes = [0; PLACES];
    let model = match read(file, &mut moves, &mut angles, &mut modes) {
        Ok(model) => model,
        Err((number, offset)) => return format!("refused {number} at {offset}\n"),
    };
    let mut set = [0; SET_WORDS];
    let mut walk = [0; WALK_NUMBERS];
    let answer = run_from_fresh(&model, &moves, &mut set, &mut walk);
    let rules = answer.rules_fired;
    let verdict = match answer.outcome {
        Outcome::Reached(length) => {
            let walk = &walk[..usize::from(length)];
            format!("reached {length} rules {rules}\n") + &walk_lines(walk, &angles, &modes)
        }
        Outcome::Safe(j) => {
            let reason = Set(set);
            let members = count(reason);
            format!("safe {j} rules {rules} members {members}\n") + &members_line(reason)
        }
        Outcome::Unfinished | Outcome::Refused(_) => {
            unreachable!("a run from fresh on a read table ends within 2N²+2N rules")
        }
    };
    model_line(&model) + &verdict
}

/// The run "without hints, budget 2·N·N + 2·N".
fn run_from_fresh(model: &Read, moves: &[u64], set: &mut [u64], walk: &mut [u16]) -> RunAnswer {
    let mut held = [0; RUN_WORDS];
    assert_eq!(fresh(model.n, &mut held), 0);
    let states = u64::from(model.n);
    let budget = 2 * states * states + 2 * states;
    run(
        moves,
        model.n,
        model.starts,
        model.safe,
        &mut held,
        &[],
        budget,
        set,
        walk,
    )
}

/// "`model`, N, starts, safe, moves"
fn model_line(model: &Read) -> String {
    format!(
        "model {} {} {} {}\n",
        model.n,
        count(model.starts),
        count(model.safe),
        model.moves
    )
}

/// "a line per state: position from 1, state, angle, mode, turn from the
/// state before (0 for the first)"
fn walk_lines(walk: &[u16], angles: &[i16], modes: &[u8]) -> String {
    let mut lines = String::new();
    for (at, &state) in walk.iter().enumerate() {
        let angle = angles[usize::from(state)];
        let mode = modes[usize::from(state)];
        let turned = if at == 0 {
            0
        } else {
            let before = usize::from(walk[at - 1]);
            turn(angles[before], angle).expect("angles that were read")
        };
        let position = at + 1;
        lines += &format!("{position} {state} {angle} {mode} {turned}\n");
    }
    lines
}

/// "one line of members rising, blank if none"
fn members_line(reason: Set) -> String {
    let members: Vec<String> = reason.members().map(|s| s.to_string()).collect();
    members.join(" ") + "\n"
}
