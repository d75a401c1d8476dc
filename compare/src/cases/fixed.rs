//! The document's own tables, and the longest of each kind.

use super::files::round_trip;
use super::listings::list;
use super::parts::in_two_parts;
use super::runs::note;
use crate::calls::files;
use crate::calls::runs::{self, Asked};
use crate::given::{ladder_of, places, HARD_N};
use crate::{Agreed, Case};
use independent::make::{self, Model};
use independent::Set;

/// File B of document 01.
const FILE_B: [u8; 31] = [
    0x03, 0x00, 0xAA, 0x00, 0x00, 0xB3, 0x00, 0x00, 0x4D, 0xFF, 0x01, 0x01, 0x00, 0x00, 0x00, 0x02,
    0x00, 0x00, 0x00, 0x01, 0x00, 0x02, 0x00, 0x00, 0x00, 0x01, 0x00, 0x01, 0x00, 0x02, 0x00,
];

pub fn table_a() -> Model {
    Model::of(3, &[(0, 1), (1, 0)], &[0], &[0, 1])
}

pub fn table_b() -> Model {
    Model::of(3, &[(0, 1), (1, 2)], &[0], &[0, 1])
}

/// The rows of "Tried on small tables" that are runs and files.
pub fn tables_of_the_document(case: &mut Case) -> Agreed<()> {
    let (a, b) = (table_a(), table_b());
    let rows: [(&Model, &[u64], u64); 7] = [
        (&a, &[], 100),
        (&a, &[7, 0, 0, 0, 1, 0, 0, 0], 100),
        (&b, &[], 10),
        (&b, &[], 11),
        (&Model::blank(3), &[], 100),
        (&Model::of(3, &[], &[], &[0, 1, 2]), &[], 100),
        (&Model::of(3, &[], &[0], &[]), &[], 100),
    ];
    for (model, hints, budget) in rows {
        let mut asked = Asked::fresh(model, budget).marked(&mut case.random);
        asked.hints = hints.to_vec();
        runs::run(case, &asked)?;
    }
    let before = places(&mut case.random);
    for length in 0..=FILE_B.len() {
        files::read(case, &FILE_B[..length], &before).map(drop)?;
    }
    for (place, byte) in [(0, 0), (1, 1), (27, 0), (29, 1)] {
        let mut file = FILE_B;
        file[place] = byte;
        list(case, &file)?;
    }
    list(case, &[&FILE_B[..], &[0]].concat())?;
    list(case, &FILE_B)
}

/// 256 states, all starts and safe, and 4,096 moves.
fn longest() -> Model {
    let mut model = Model::blank(256);
    model.i = Set::full_of(256);
    model.p = Set::full_of(256);
    for at in 0..4096 {
        model.add_move(at / 16, at % 16 * 17);
    }
    for s in 0..256 {
        model.angles[s] = if s % 2 == 0 { -180 } else { 179 };
        model.modes[s] = (s % 16) as u8;
    }
    model
}

pub fn longest_file(case: &mut Case) -> Agreed<()> {
    let model = longest();
    round_trip(case, &model)?;
    let mut file = model.file();
    file.push(0);
    list(case, &file)
}

/// Every state in the set of a safe run, and in the walk of a reached one.
pub fn longest_listings(case: &mut Case) -> Agreed<()> {
    list(case, &longest().file())?;
    let mut chain = make::chain(256);
    for s in 0..256 {
        chain.angles[s] = if s % 3 == 0 { -180 } else { 179 };
        chain.modes[s] = 15;
    }
    list(case, &chain.file())
}

/// The longest run there is on a chain, at once and in two parts.
pub fn long_chain(case: &mut Case) -> Agreed<()> {
    let chain = make::chain(256);
    let asked = Asked::fresh(&chain, u64::MAX).marked(&mut case.random);
    let ran = runs::run(case, &asked)?;
    note(case, &asked, &ran);
    let rules = ran.answer.rules_fired;
    let first = case.random.below(rules as usize) as u64;
    in_two_parts(case, asked, first, rules - first)
}

/// The highest Unfold that can come, and the longest walks.
pub fn ladders(case: &mut Case) -> Agreed<()> {
    for states in HARD_N {
        let mut chain = make::chain(states);
        for safe in [chain.p, Set::full_of(states)] {
            chain.p = safe;
            let start = ladder_of(chain.clone(), states + 1);
            let words = runs::single(case, &chain, &start.words, safe)?;
            runs::single(case, &chain, &words, safe)?;
            let mut asked = Asked::fresh(&chain, u64::MAX).marked(&mut case.random);
            asked.run = start.words;
            let ran = runs::run(case, &asked)?;
            note(case, &asked, &ran);
        }
    }
    Ok(())
}
