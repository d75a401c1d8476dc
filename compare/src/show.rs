//! Short forms of what a call was given, for a failure's report.

use crate::given::Both;
use independent::make::Model;
use independent::table::{rows_of, MOVE_WORDS};
use independent::Set;

/// At most so many of anything.
const MOST: usize = 24;

fn short<T: ToString>(items: &[T], between: &str) -> String {
    let first: Vec<String> = items.iter().take(MOST).map(T::to_string).collect();
    let rest = if items.len() > MOST {
        format!(" .. {} in all", items.len())
    } else {
        String::new()
    };
    first.join(between) + &rest
}

pub fn set(set: Set) -> String {
    let members: Vec<usize> = set.members().collect();
    format!("{{{}}}", short(&members, ","))
}

pub fn table(model: &Model) -> String {
    let (n, starts, safe) = (model.n, set(model.i), set(model.p));
    format!(
        "N {n}, starts {starts}, safe {safe}, {}",
        moves(&model.moves)
    )
}

pub fn moves(words: &[u64]) -> String {
    let mut pairs = Vec::new();
    for (at, word) in words.iter().enumerate() {
        for bit in (0..64).filter(|bit| (word >> bit) & 1 == 1) {
            pairs.push(format!("{}-{}", at / 4, at % 4 * 64 + bit));
        }
    }
    format!("{} words of moves {}", words.len(), short(&pairs, " "))
}

/// Both tables: the moves, and the moves on which the second table disagrees.
pub fn both(both: &Both) -> String {
    let second = both.second.len();
    let disagree = if both.moves.len() == MOVE_WORDS && second == MOVE_WORDS {
        let pairs = disagreements(both);
        format!("{} disagreements {}", pairs.len(), short(&pairs, " "))
    } else {
        "not to be held against each other".into()
    };
    let (n, moves) = (both.n, moves(&both.moves));
    format!("N {n}, {moves}, second table of {second}, {disagree}")
}

fn disagreements(both: &Both) -> Vec<String> {
    let (moves, second) = (rows_of(&both.moves), rows_of(&both.second));
    let mut pairs = Vec::new();
    for (s, row) in moves.iter().enumerate() {
        for (t, leading_to) in second.iter().enumerate() {
            if row.member(t) != leading_to.member(s) {
                pairs.push(format!("{s}-{t}"));
            }
        }
    }
    pairs
}

pub fn run(words: &[u64]) -> String {
    let word = |at: usize| words.get(at).copied().unwrap_or(0);
    format!(
        "run buffer of {} words, n {}, k {}",
        words.len(),
        word(0),
        word(1)
    )
}

pub fn hints(words: &[u64]) -> String {
    let sets: Vec<String> = words
        .chunks_exact(4)
        .map(|four| set(Set::from_words(four)))
        .collect();
    format!("{} words of hints {}", words.len(), short(&sets, " "))
}

pub fn states(model: &Model) -> String {
    let (angles, modes) = (&model.angles, &model.modes);
    let (first, second) = (short(angles, " "), short(modes, " "));
    format!(
        "{} angles {first}, {} modes {second}",
        angles.len(),
        modes.len()
    )
}

pub fn bytes(bytes: &[u8]) -> String {
    let hex: Vec<String> = bytes.iter().map(|byte| format!("{byte:02X}")).collect();
    format!("{} bytes {}", bytes.len(), short(&hex, " "))
}
