//! Runs with hints and budgets.

use crate::calls::runs::{self, Asked, Ran};
use crate::given::{hard_model, ladder, other_length, Start, HARD_N};
use crate::lent::any;
use crate::{Agreed, Case};
use independent::make;
use independent::random::Random;
use independent::rules::Run;
use independent::run_buffer::MOST_SETS;
use independent::{Outcome, Set};

/// From so many states on, most runs are cut short, to save time.
const LONG: u16 = 129;

pub fn run(case: &mut Case) -> Agreed<()> {
    let random = &mut case.random;
    let start = Start::any(random);
    let mut asked = ask(random, &start);
    let (budget, name) = any_budget(random, &asked);
    asked.budget = budget;
    if random.chance(1, 4) {
        spoil(random, start, &mut asked);
    }
    let ran = runs::run(case, &asked)?;
    note(case, &asked, &ran);
    if !refused(&ran) {
        case.seen.also("its budget", name);
    }
    Ok(())
}

/// A hard table from fresh, or a ladder, with no hint to shorten the run.
pub fn hard_run(case: &mut Case) -> Agreed<()> {
    let random = &mut case.random;
    let start = if random.chance(1, 2) {
        ladder(random)
    } else {
        let model = hard_model(random);
        let held = Run::fresh(model.states());
        Start::of(model, held)
    };
    let budget = random.one_of(&[0, 1, 300, 1000, 10_000, u64::MAX]);
    let mut asked = Asked::fresh(&start.model, budget).marked(random);
    asked.run = start.words;
    let ran = runs::run(case, &asked)?;
    note(case, &asked, &ran);
    Ok(())
}

/// A run with random hints and anything in the places of its set and walk.
pub fn ask(random: &mut Random, start: &Start) -> Asked {
    let hints = if random.chance(1, 3) {
        Vec::new()
    } else {
        make::any_hints(random, &start.model.table(), &start.held)
    };
    let mut asked = Asked::fresh(&start.model, u64::MAX).marked(random);
    asked.run = start.words.clone();
    asked.hints = hints;
    asked
}

/// Damages what is lent, so that several refusals may be due at once.
fn spoil(random: &mut Random, mut start: Start, asked: &mut Asked) {
    start.spoil(random);
    asked.model = start.model;
    asked.run = start.words;
    if random.chance(1, 8) {
        let more = random.between(1, 3);
        asked.hints.extend(any::<u64>(random, more));
    }
    if random.chance(1, 8) {
        other_length(random, &mut asked.set);
    }
    if random.chance(1, 8) {
        other_length(random, &mut asked.walk);
    }
}

/// A budget and its name.
fn any_budget(random: &mut Random, asked: &Asked) -> (u64, &'static str) {
    let states = u64::from(asked.model.n);
    if asked.model.n >= LONG && !random.chance(1, 2) {
        return (random.between(2, 1000) as u64, "small");
    }
    match random.below(10) {
        0 => (0, "0"),
        1 => (1, "1"),
        2 => (needed(asked), "exact"),
        3 => match needed(asked) {
            0 => (0, "0"),
            rules => (rules - 1, "one short"),
        },
        4 => (2 * states * states + 2 * states, "the bound"),
        5 => (u64::MAX, "the largest"),
        6 => (random.one_of(&[1 << 16, 1 << 32, 1 << 63]), "a high bit"),
        _ => (random.between(2, 100) as u64, "small"),
    }
}

/// The rules that a run needs to its end, where its budget is enough.
pub fn needed(asked: &Asked) -> u64 {
    asked.of_independent().answer.rules_fired
}

/// A budget that most runs end within.
pub fn enough(asked: &Asked) -> u64 {
    if asked.model.n >= LONG {
        2000
    } else {
        u64::MAX
    }
}

fn refused(ran: &Ran) -> bool {
    matches!(ran.answer.outcome, Outcome::Refused(_))
}

/// Counts what a run that was not refused had in it.
pub fn note(case: &mut Case, asked: &Asked, ran: &Ran) {
    if refused(ran) {
        return;
    }
    let states = asked.model.states();
    if HARD_N.contains(&states) {
        case.seen.also("N of a run", &states.to_string());
    }
    note_sets(case, asked, ran);
    note_hints(case, asked, ran);
    let rules = match ran.answer.rules_fired {
        0 => "0",
        1..=9 => "1 to 9",
        10..=99 => "10 to 99",
        100..=999 => "100 to 999",
        _ => "1000 up",
    };
    case.seen.also("its rules", rules);
}

fn note_sets(case: &mut Case, asked: &Asked, ran: &Ran) {
    let model = &asked.model;
    let full = Set::full_of(model.states());
    let sets = [
        ("no start", model.i == Set::EMPTY),
        ("all start", model.i == full),
        ("none safe", model.p == Set::EMPTY),
        ("all safe", model.p == full),
        ("n = 258", ran.run[0] == MOST_SETS as u64),
        (
            "256 in the walk",
            ran.answer.outcome == Outcome::Reached(256),
        ),
    ];
    for (name, _) in sets.into_iter().filter(|(_, had)| *had) {
        case.seen.also("its sets", name);
    }
}

fn note_hints(case: &mut Case, asked: &Asked, ran: &Ran) {
    let (taken, used) = (ran.answer.hints_taken, ran.answer.hints_used);
    let lent = asked.hints.len() as u64 / 4;
    let hints = [
        ("none", lent == 0),
        ("all used", 0 < taken && used == taken),
        ("none used", 0 < taken && used == 0),
        ("some used", 0 < used && used < taken),
        ("some left", taken < lent),
    ];
    for (name, _) in hints.into_iter().filter(|(_, had)| *had) {
        case.seen.also("its hints", name);
    }
}
