//! What the cases are given: beside the inputs of `make`, hard ones and wrong lengths.

use crate::calls::runs::Asked;
use crate::lent::{any, Element};
use independent::make::{self, Model};
use independent::random::Random;
use independent::rules::{Rule, Run};
use independent::run_buffer::{place_of_x, place_of_y, put, RUN_WORDS};
use independent::set::PLACES;
use independent::table::{Table, MOVE_WORDS};
use independent::Set;

/// The ends of N, and the borders of the words of a set.
pub const HARD_N: [usize; 7] = [1, 63, 64, 65, 128, 255, 256];

// ------------------------------------------------------------- lengths

/// Added to a length, it is lost where the length is kept in 16 bits.
pub const WIDE: usize = 1 << 16;

/// The contents cut or drawn out to another length: none, one less, one more, the same in 16 bits, any.
pub fn other_length<T: Element>(random: &mut Random, contents: &mut Vec<T>) {
    let right = contents.len();
    let length = match random.below(16) {
        0..=3 => 0,
        4..=7 => right.saturating_sub(1),
        8..=11 => right + 1,
        12 => right + WIDE,
        _ => random.below(2 * right + 1),
    };
    contents.truncate(length);
    contents.extend(any::<T>(random, length - contents.len()));
}

/// The places of a table with anything in them, all of the right lengths.
pub fn places(random: &mut Random) -> Model {
    Model {
        n: 0,
        i: make::any_words(random),
        p: make::any_words(random),
        moves: any(random, MOVE_WORDS),
        angles: any(random, PLACES),
        modes: any(random, PLACES),
    }
}

// -------------------------------------------------------------- models

/// A number of states, nearly half of them small: more different runs in the same time.
pub fn any_n(random: &mut Random) -> usize {
    match random.below(16) {
        0..=2 => random.one_of(&HARD_N),
        3..=5 => random.between(1, 256),
        6..=8 => random.between(10, 64),
        _ => random.between(1, 16),
    }
}

/// A sound model, one in eight of them hard.
pub fn model(random: &mut Random) -> Model {
    if random.chance(1, 8) {
        return hard_model(random);
    }
    let n = any_n(random);
    make::model_of(random, n)
}

/// A model on which a run, most often, has something to do.
fn run_model(random: &mut Random) -> Model {
    if random.chance(1, 3) {
        return busiest(random);
    }
    for _ in 0..8 {
        let model = model(random);
        let full = Set::full_of(model.states());
        let idle = model.i == Set::EMPTY || !model.i.within(model.p) || model.p == full;
        if !idle || random.chance(1, 6) {
            return model;
        }
    }
    model(random)
}

/// Of five models, the one on which a run fires the most rules.
fn busiest(random: &mut Random) -> Model {
    let models: Vec<Model> = (0..5)
        .map(|_| {
            let n = random.between(4, 100);
            make::model_of(random, n)
        })
        .collect();
    let rules = |model: &&Model| Asked::fresh(model, 500).of_independent().answer.rules_fired;
    models
        .iter()
        .max_by_key(rules)
        .expect("five models")
        .clone()
}

/// A hard N, no or all moves or a chain, and often no or all starts, none or all safe.
pub fn hard_model(random: &mut Random) -> Model {
    let n = random.one_of(&HARD_N);
    let mut model = match random.below(4) {
        0 => Model::blank(n),
        1 => complete(n),
        2 => make::chain(n),
        _ => make::model_of(random, n),
    };
    for set in [&mut model.i, &mut model.p] {
        match random.below(6) {
            0 | 1 => *set = Set::EMPTY,
            2 | 3 => *set = Set::full_of(n),
            _ => {}
        }
    }
    for s in 0..n {
        model.angles[s] = random.one_of(&[-180, -179, -1, 0, 1, 178, 179]);
        model.modes[s] = random.below(16) as u8;
    }
    model
}

/// Every move there can be; one start, and all but the last state safe.
pub fn complete(n: usize) -> Model {
    let mut model = make::chain(n);
    for from in 0..n {
        for to in 0..n {
            model.add_move(from, to);
        }
    }
    model
}

// ---------------------------------------------------------- both tables

/// A move table and its second table.
#[derive(Clone, PartialEq)]
pub struct Both {
    pub n: u16,
    pub moves: Vec<u64>,
    pub second: Vec<u64>,
}

impl Both {
    /// The model's moves and a second table that agrees with them.
    pub fn of(model: &Model) -> Both {
        Both {
            n: model.n,
            moves: model.moves.clone(),
            second: model.second(),
        }
    }

    /// The same, but the model may be damaged, the second table may disagree and the lengths may be wrong, so that
    /// several refusals may be due at once.
    pub fn spoiled(random: &mut Random, model: &Model) -> Both {
        let mut lent = model.clone();
        match random.below(8) {
            0 => lent.n = random.one_of(&[0, 257, 258, 512, 65535]),
            1 => lent.add_move(
                random.below(PLACES),
                random.between(model.states().min(255), 255),
            ),
            2 => lent = make::damaged_model(random, model),
            _ => {}
        }
        let mut both = Both::of(&lent);
        match random.below(8) {
            0..=3 => both.second = make::disagreeing_second(random, &lent),
            4 => both.second = model.second(),
            _ => {}
        }
        if random.chance(1, 10) {
            other_length(random, &mut both.moves);
        }
        if random.chance(1, 10) {
            other_length(random, &mut both.second);
        }
        both
    }

    /// Of two tables of 1,024 words.
    pub fn has_move(&self, from: u16, to: u16) -> bool {
        let (from, to) = (usize::from(from), usize::from(to));
        (self.moves[4 * from + to / 64] >> (to % 64)) & 1 == 1
    }
}

/// The state number of a call: most often one below N, else N or more or anything.
pub fn state_number(random: &mut Random, n: u16) -> u16 {
    let below = random.below(usize::from(n)) as u16;
    match random.below(16) {
        0 | 1 => random.one_of(&[n, 255, 256, 65535]),
        2 => random.word() as u16,
        3 => n - 1,
        _ => below,
    }
}

/// Two states of a sound model, about as often with a move from the one to the other as without.
pub fn two_states(random: &mut Random, model: &Model) -> (u16, u16) {
    let pairs = model.pairs();
    let (from, to) = if random.chance(1, 2) && !pairs.is_empty() {
        random.one_of(&pairs)
    } else {
        let states = model.states();
        (random.below(states), random.below(states))
    };
    (from as u16, to as u16)
}

// ---------------------------------------------------------------- runs

/// A table, a run that passes its entry check, and the run buffer to lend.
pub struct Start {
    pub model: Model,
    pub held: Run,
    pub words: Vec<u64>,
}

impl Start {
    pub fn of(model: Model, held: Run) -> Start {
        let words = put(&held).to_vec();
        Start { model, held, words }
    }

    /// Most often one that has not concluded.
    pub fn any(random: &mut Random) -> Start {
        if random.chance(1, 40) {
            return ladder(random);
        }
        let model = run_model(random);
        let table = model.table();
        let most = if random.chance(4, 5) { 8 } else { 1 };
        let mut held = any_held(random, &model, &table);
        for _ in 1..most {
            if held.conclusion(&table).is_none() {
                break;
            }
            held = any_held(random, &model, &table);
        }
        Start::of(model, held)
    }

    /// Damages some of it, so that several refusals may be due at once.
    pub fn spoil(&mut self, random: &mut Random) {
        let table = self.model.table();
        match random.below(6) {
            0 | 1 => self.words = make::damaged_run(random, &table, &self.held).to_vec(),
            2 => self.words = make::any_run_buffer(random, &table).to_vec(),
            3 => self.words = any(random, RUN_WORDS),
            _ => {}
        }
        if random.chance(1, 3) {
            self.model = make::damaged_model(random, &self.model);
        }
        if random.chance(1, 8) {
            other_length(random, &mut self.model.moves);
        }
        if random.chance(1, 8) {
            other_length(random, &mut self.words);
        }
    }
}

/// Any run that passes the entry check.
fn any_held(random: &mut Random, model: &Model, table: &Table) -> Run {
    match random.below(12) {
        0 => tallest(model).unwrap_or_else(|| Run::fresh(table.n)),
        1 => make::any_reached_run(random, table, 400),
        2..=4 => Run::fresh(table.n),
        _ => make::any_good_run(random, table),
    }
}

/// A chain whose x_j hold one state more each, with n at or near N+1: the longest walks after few rules.
pub fn ladder(random: &mut Random) -> Start {
    let states = random.one_of(&HARD_N);
    let mut model = make::chain(states);
    if random.chance(1, 3) {
        model.p = Set::full_of(states);
    }
    let n = (states + 1 - random.one_of(&[0, 0, 0, 1, 2])).max(2);
    ladder_of(model, n)
}

pub fn ladder_of(chain: Model, n: usize) -> Start {
    let held = Run {
        x: (0..n).map(Set::full_of).collect(),
        y: Default::default(),
    };
    Start::of(chain, held)
}

/// The longest run buffer, n = N+2: what can be reached, again and again, below a full set.
pub fn tallest(model: &Model) -> Option<Run> {
    let (full, reachable) = (Set::full_of(model.states()), model.reachable());
    if !reachable.within(model.p) {
        return None;
    }
    let mut x = vec![reachable; model.states() + 2];
    x[0] = Set::EMPTY;
    x[model.states() + 1] = full;
    let y = if model.p == full {
        vec![]
    } else {
        vec![model.p]
    };
    Some(Run { x, y: y.into() })
}

/// A run that holds many sets.
pub fn crowded(random: &mut Random) -> Start {
    let model = busiest(random);
    let table = model.table();
    let runs: Vec<Run> = (0..8).map(|_| make::any_good_run(random, &table)).collect();
    let held = runs
        .into_iter()
        .max_by_key(|held| held.x.len() + 3 * held.y.len());
    Start::of(model, held.expect("eight runs"))
}

/// The run buffer with one member more or less in one of its sets.
pub fn one_member_changed(random: &mut Random, start: &Start) -> Vec<u64> {
    let mut words = start.words.clone();
    let (n, k) = (start.held.n(), start.held.k());
    let place = if k < n && random.chance(1, 2) {
        place_of_y(random.between(k, n - 1))
    } else {
        place_of_x(random.below(n))
    };
    let s = random.below(start.model.states());
    words[place + s / 64] ^= 1 << (s % 64);
    words
}

/// A proposed set, allowed in about half of the cases.
pub fn proposal(random: &mut Random, table: &Table, held: &Run) -> Set {
    let due = match held.conclusion(table) {
        Some(_) => Rule::Unfold,
        None => held.rule_due(table),
    };
    let allowed = make::any_allowed(random, table, held, due);
    match (random.below(8), allowed) {
        (0..=4, Some(z)) => z,
        // One member from N up, or one member more or less.
        (5, Some(mut z)) => {
            let s = random.below(PLACES);
            if z.member(s) {
                z.remove(s);
            } else {
                z.insert(s);
            }
            z
        }
        (6, _) => make::any_words(random),
        _ => make::any_hint(random, table),
    }
}
