//! What has been compared, and how each call ended, so that a reader sees that nothing is vacuous.

use crate::cases::PAIRS_OF_ANGLES;

/// From this many comparisons on, every outcome below must have come. The pairs of angles come in one case, and bring none
/// but turns.
const ENOUGH: u64 = PAIRS_OF_ANGLES + 100_000;

/// Each call with the outcomes that can come, refusals by number: 11 never does.
const CALLS: [(&str, &str); 17] = [
    ("full", "done, 2"),
    ("count", "done"),
    ("smallest", "member, none"),
    ("turn", "180, -180, other, 3"),
    ("f", "done, 7, 2, 13"),
    ("g", "done, 7, 2, 13"),
    ("fresh", "done, 7, 2"),
    (
        "single",
        "Unfold, Candidate, Decide, Conflict, 7, 2, 13, 8, 10, 9",
    ),
    ("run", "unfinished, safe, reached, 7, 2, 13, 8"),
    ("read", "done, 7, 1, 2, 3, 4, 5, 6"),
    ("write", "done, 7, 2 for N, 13, 3, 2 for moves, 12"),
    ("check", "refused, safe, reached, 12"),
    ("second", "done, 7, 2, 13"),
    ("into", "done, 7, 2, 13, 14, 4"),
    ("add", "done, 7, 2, 13, 14, 4, 15"),
    ("remove", "done, 7, 2, 13, 14, 4, 15"),
    ("g by second", "done, 7, 2, 13, 14"),
];

/// What else must have been among them.
const ALSO: [(&str, &str); 10] = [
    ("turns", "every pair of angles"),
    ("N of a run", "1, 63, 64, 65, 128, 255, 256"),
    (
        "its sets",
        "no start, all start, none safe, all safe, n = 258, 256 in the walk",
    ),
    (
        "its budget",
        "0, 1, small, one short, exact, the bound, a high bit, the largest",
    ),
    (
        "its hints",
        "none, all used, none used, some used, some left",
    ),
    ("its rules", "0, 1 to 9, 10 to 99, 100 to 999, 1000 up"),
    ("parts", "two as one, no sum, budget 0 at the end"),
    ("edits", "second table in step, taken back"),
    ("kept runs", "refused with 8, safe, reached"),
    ("files", "written and read, read and written, 18184 bytes"),
];

pub struct Seen {
    pub comparisons: u64,
    rows: Vec<Row>,
}

struct Row {
    subject: &'static str,
    outcomes: Vec<(&'static str, u64)>,
}

impl Seen {
    pub fn nothing() -> Seen {
        let row = |&(subject, outcomes): &(&'static str, &'static str)| Row {
            subject,
            outcomes: outcomes.split(", ").map(|name| (name, 0)).collect(),
        };
        Seen {
            comparisons: 0,
            rows: CALLS.iter().chain(&ALSO).map(row).collect(),
        }
    }

    /// One comparison of one call, which agreed.
    pub fn call(&mut self, call: &str, outcome: &str) {
        self.comparisons += 1;
        self.also(call, outcome);
    }

    /// Something that a comparison had in it.
    pub fn also(&mut self, subject: &str, outcome: &str) {
        let rows = self.rows.iter_mut().filter(|row| row.subject == subject);
        let found = rows
            .flat_map(|row| &mut row.outcomes)
            .find(|(name, _)| *name == outcome);
        match found {
            Some((_, times)) => *times += 1,
            None => panic!("{subject}: {outcome} cannot come"),
        }
    }

    pub fn print(&self) {
        for row in &self.rows {
            let total: u64 = row.outcomes.iter().map(|(_, times)| times).sum();
            let each = row
                .outcomes
                .iter()
                .map(|(name, times)| format!("{name}: {times}"));
            let each: Vec<String> = each.collect();
            println!("{:<12} {total:>8}   {}", row.subject, each.join("  "));
        }
    }

    /// What should have come and did not.
    pub fn missing(&self) -> Vec<String> {
        let mut missing = Vec::new();
        for row in &self.rows {
            for (name, _) in row.outcomes.iter().filter(|(_, times)| *times == 0) {
                missing.push(format!("{} {name}", row.subject));
            }
        }
        if self.comparisons < ENOUGH {
            missing.clear();
        }
        missing
    }
}
