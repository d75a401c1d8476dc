//! Runs kept across an edit: "demands 2 and 3 read over the edited table."

use super::edits::turned_over;
use super::fixed::{table_a, table_b};
use super::runs::{ask, enough, note};
use crate::calls::edits::{self, Edited};
use crate::calls::runs::{self, Asked, Ran};
use crate::given::{crowded, two_states, Both, Start};
use crate::lent::any;
use crate::{Agreed, Case};
use independent::make::Model;
use independent::random::Random;
use independent::run_buffer::{take, RUN_WORDS};
use independent::second::SECOND_WORDS;
use independent::{Outcome, RunAnswer};

/// A run buffer kept across an edit, and a fresh one, both run on the edited table.
pub fn any_run(case: &mut Case) -> Agreed<()> {
    let start = any_start(&mut case.random);
    let mut both = Both::of(&start.model);
    both.second = any(&mut case.random, SECOND_WORDS);
    let both = edits::second(case, &both)?.expect("a sound table");
    let (from, to) = any_edit(&mut case.random, &start);
    let edited = turned_over(case, &both, from, to)?;

    let mut asked = ask(&mut case.random, &start);
    asked.model.moves = edited.moves;
    asked.budget = enough(&asked);
    let kept = runs::run(case, &asked)?;
    note(case, &asked, &kept);
    let fresh = Asked::fresh(&asked.model, asked.budget).marked(&mut case.random);
    let fresh = runs::run(case, &fresh)?;
    end_alike(case, kept.answer, fresh.answer)
}

/// A run to be kept: as made, with many sets, or some way on.
fn any_start(random: &mut Random) -> Start {
    match random.below(3) {
        0 => Start::any(random),
        1 => crowded(random),
        _ => {
            let mut start = Start::any(random);
            let mut asked = ask(random, &start);
            asked.budget = random.one_of(&[5, 20, 2000]);
            start.words = asked.of_independent().run;
            start
        }
    }
}

/// Two states; in half of the cases those of an edit after which the run buffer is refused, if one is soon found.
fn any_edit(random: &mut Random, start: &Start) -> (u16, u16) {
    let mut two = two_states(random, &start.model);
    if random.chance(1, 2) {
        for _ in 0..20 {
            if refused_after(start, two) {
                break;
            }
            two = two_states(random, &start.model);
        }
    }
    two
}

fn refused_after(start: &Start, (from, to): (u16, u16)) -> bool {
    let mut edited = start.model.clone();
    let (from, to) = (usize::from(from), usize::from(to));
    edited.moves[4 * from + to / 64] ^= 1 << (to % 64);
    take(&start.words, &edited.table()).is_none()
}

/// Where both of two runs on one table end, they end with the same verdict.
fn end_alike(case: &mut Case, kept: RunAnswer, fresh: RunAnswer) -> Agreed<()> {
    let outcome = match (kept.outcome, fresh.outcome) {
        (Outcome::Refused(8), _) => "refused with 8",
        (Outcome::Unfinished, _) | (_, Outcome::Unfinished) => return Ok(()),
        (Outcome::Safe(_), Outcome::Safe(_)) => "safe",
        (Outcome::Reached(a), Outcome::Reached(b)) if a == b => "reached",
        _ => return Err(format!("call run\nkept {kept:?}, fresh {fresh:?}")),
    };
    case.seen.also("kept runs", outcome);
    Ok(())
}

/// Run buffers of tables A and B kept across an edit, as worked out by hand.
pub fn by_hand(case: &mut Case) -> Agreed<()> {
    use Outcome::{Reached, Refused, Safe};
    // x_1 = x_2 = {0,1}.
    let a_ended = Held::after(case, table_a(), 100, &[(0, 3), (1, 3), (6, 3), (10, 3)])?;
    // f(x_1) is not within x_2.
    let ended = a_ended.across(case, edits::add, (0, 2), 100)?;
    expect(ended, [(Refused(8), 0), (Reached(2), 5)])?;
    let ended = a_ended.across(case, edits::add, (0, 0), 0)?;
    expect(ended, [(Safe(1), 0), (Safe(1), 5)])?;
    let ended = a_ended.across(case, edits::remove, (1, 0), 0)?;
    expect(ended, [(Safe(1), 0), (Safe(1), 5)])?;
    // x_1 = {0,1}, x_2 full.
    let a_stopped = Held::after(case, table_a(), 3, &[(0, 3), (1, 3), (6, 3), (10, 7)])?;
    let ended = a_stopped.across(case, edits::add, (0, 2), 100)?;
    expect(ended, [(Reached(2), 2), (Reached(2), 5)])?;
    // x_1 = {0,1}, x_2 full, y_1 = {0,2}, y_2 = {0,1}.
    let words = [(0, 3), (1, 1), (6, 3), (10, 7), (1038, 5), (1042, 3)];
    let b_stopped = Held::after(case, table_b(), 5, &words)?;
    // g(y_2) is not within y_1.
    let ended = b_stopped.across(case, edits::remove, (1, 2), 100)?;
    expect(ended, [(Refused(8), 0), (Safe(1), 5)])
}

/// A table and the run buffer to be kept.
struct Held {
    model: Model,
    run: Vec<u64>,
}

type Edit = fn(&mut Case, &Both, u16, u16) -> Agreed<Edited>;

/// How a run ended, and after how many rules.
type Ended = (Outcome, u64);

impl Held {
    /// What a run of at most so many rules leaves: these words, and 0 in every other.
    fn after(case: &mut Case, model: Model, rules: u64, words: &[(usize, u64)]) -> Agreed<Held> {
        let asked = Asked::fresh(&model, rules).marked(&mut case.random);
        let run = runs::run(case, &asked)?.run;
        let mut expected = vec![0; RUN_WORDS];
        words.iter().for_each(|&(at, word)| expected[at] = word);
        if run != expected {
            return Err("call run\nit leaves other words than by hand".into());
        }
        Ok(Held { model, run })
    }

    /// How the kept run, with this budget, and a fresh one end on the edited table.
    fn across(
        &self,
        case: &mut Case,
        edit: Edit,
        (from, to): (u16, u16),
        budget: u64,
    ) -> Agreed<[Ended; 2]> {
        let edited = edit(case, &Both::of(&self.model), from, to)?;
        let mut fresh = Asked::fresh(&self.model, 100).marked(&mut case.random);
        fresh.model.moves = edited.expect("an edit that can be made").moves;
        let mut kept = fresh.clone();
        kept.run = self.run.clone();
        kept.budget = budget;
        Ok([
            ended(runs::run(case, &kept)?)?,
            ended(runs::run(case, &fresh)?)?,
        ])
    }
}

/// The one walk there is in these cases goes from 0 to 2.
fn ended(ran: Ran) -> Agreed<Ended> {
    if matches!(ran.answer.outcome, Outcome::Reached(_)) && ran.walk[..2] != [0, 2] {
        return Err("call run\nanother walk than by hand".into());
    }
    Ok((ran.answer.outcome, ran.answer.rules_fired))
}

fn expect(ended: [Ended; 2], by_hand: [Ended; 2]) -> Agreed<()> {
    if ended == by_hand {
        return Ok(());
    }
    Err(format!(
        "call run\nkept and fresh {ended:?}, by hand {by_hand:?}"
    ))
}
