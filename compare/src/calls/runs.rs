//! `fresh`, `single` and `run`.

use super::{compared, refusal_name, same};
use crate::boundary::LentRun;
use crate::lent::{any, lent_set, Lent, LentTable};
use crate::{boundary, show, Agreed, Case};
use independent::make::Model;
use independent::random::Random;
use independent::run_buffer::RUN_WORDS;
use independent::search::{SET_WORDS, WALK_NUMBERS};
use independent::{Outcome, Rule, RunAnswer, Set};

pub fn fresh(case: &mut Case, n: u16, before: &[u64]) -> Agreed<()> {
    let mut run = Lent::of(before);
    let number = boundary::fresh(n, &mut run);
    let mut after = before.to_vec();
    let expected = independent::fresh(n, &mut after);
    let parts = [same("answer", number, expected), run.holds("run", &after)];
    let given = || format!("n {n}, {} words", before.len());
    compared(case, "fresh", refusal_name(expected), parts, given)
}

/// The number of a rule in document 01, and its name.
fn rule_number(rule: Rule) -> (u8, &'static str) {
    match rule {
        Rule::Unfold => (2, "Unfold"),
        Rule::Candidate => (3, "Candidate"),
        Rule::Decide => (4, "Decide"),
        Rule::Conflict => (5, "Conflict"),
    }
}

/// Gives the run buffer after it.
pub fn single(case: &mut Case, model: &Model, before: &[u64], proposal: Set) -> Agreed<Vec<u64>> {
    let mut table = LentTable::of(model);
    let mut run = Lent::of(before);
    let mut lent_proposal = lent_set(proposal);
    let rule_before: Vec<u8> = any(&mut case.random, 1);
    let mut rule = Lent::of(&rule_before);
    let number = boundary::single(&mut table, &mut run, &mut lent_proposal, &mut rule);

    let mut after = before.to_vec();
    let fired = independent::single_rule(
        &model.moves,
        model.n,
        model.i,
        model.p,
        &mut after,
        proposal,
    );
    let (expected, rule_after, outcome) = match fired {
        Ok(fired) => (0, vec![rule_number(fired).0], rule_number(fired).1),
        Err(refusal) => (refusal, rule_before, refusal_name(refusal)),
    };
    let parts = [
        same("answer", number, expected),
        rule.holds("rule", &rule_after),
        run.holds("run", &after),
        lent_proposal.holds("proposal", &proposal.0),
        table.holds(model),
    ];
    compared(case, "single", outcome, parts, || {
        let (table, run) = (show::table(model), show::run(before));
        format!("{table}, {run}, proposal {}", show::set(proposal))
    })?;
    Ok(after)
}

/// What a run is asked, and what it finds in the places it is lent.
#[derive(Clone)]
pub struct Asked {
    pub model: Model,
    pub run: Vec<u64>,
    pub hints: Vec<u64>,
    pub budget: u64,
    pub set: Vec<u64>,
    pub walk: Vec<u16>,
}

/// What it answers, and what it leaves there.
pub struct Ran {
    pub answer: RunAnswer,
    pub run: Vec<u64>,
    pub set: Vec<u64>,
    pub walk: Vec<u16>,
}

impl Asked {
    /// A run from fresh, without hints.
    pub fn fresh(model: &Model, budget: u64) -> Asked {
        let mut run = vec![0; RUN_WORDS];
        independent::fresh(model.n, &mut run);
        Asked {
            model: model.clone(),
            run,
            hints: Vec::new(),
            budget,
            set: vec![0; SET_WORDS],
            walk: vec![0; WALK_NUMBERS],
        }
    }

    /// The same with anything in the places of the set and the walk.
    pub fn marked(mut self, random: &mut Random) -> Asked {
        self.set = any(random, SET_WORDS);
        self.walk = any(random, WALK_NUMBERS);
        self
    }

    pub fn of_independent(&self) -> Ran {
        let (mut run, mut set, mut walk) = (self.run.clone(), self.set.clone(), self.walk.clone());
        let Model { n, i, p, moves, .. } = &self.model;
        let (hints, budget) = (&self.hints, self.budget);
        let answer = independent::run(
            moves, *n, *i, *p, &mut run, hints, budget, &mut set, &mut walk,
        );
        Ran {
            answer,
            run,
            set,
            walk,
        }
    }

    fn shown(&self) -> String {
        let (table, run, hints) = (
            show::table(&self.model),
            show::run(&self.run),
            show::hints(&self.hints),
        );
        let (budget, set, walk) = (self.budget, self.set.len(), self.walk.len());
        format!("{table}, {run}, {hints}, budget {budget}, set of {set}, walk of {walk}")
    }
}

/// The refusal, the five words of the answer and the outcome's name.
fn answer_words(answer: &RunAnswer) -> (u8, Option<[u64; 5]>, &'static str) {
    let (verdict, number, name) = match answer.outcome {
        Outcome::Unfinished => (0, 0, "unfinished"),
        Outcome::Safe(j) => (1, j, "safe"),
        Outcome::Reached(states) => (2, states, "reached"),
        Outcome::Refused(refusal) => return (refusal, None, refusal_name(refusal)),
    };
    let RunAnswer {
        rules_fired,
        hints_taken,
        hints_used,
        ..
    } = *answer;
    (
        0,
        Some([
            verdict,
            u64::from(number),
            rules_fired,
            hints_taken,
            hints_used,
        ]),
        name,
    )
}

pub fn run(case: &mut Case, asked: &Asked) -> Agreed<Ran> {
    let answer_before: Vec<u64> = any(&mut case.random, 5);
    let mut table = LentTable::of(&asked.model);
    let mut lent = LentRun {
        run: Lent::of(&asked.run),
        hints: Lent::of(&asked.hints),
        set: Lent::of(&asked.set),
        walk: Lent::of(&asked.walk),
        answer: Lent::of(&answer_before),
    };
    let number = boundary::run(&mut table, &mut lent, asked.budget);

    let ran = asked.of_independent();
    let (refusal, words, outcome) = answer_words(&ran.answer);
    let answer_after = words.map_or(answer_before, |words| words.to_vec());
    let parts = [
        same("answer", number, refusal),
        lent.answer.holds("answer", &answer_after),
        lent.run.holds("run", &ran.run),
        lent.set.holds("set", &ran.set),
        lent.walk.holds("walk", &ran.walk),
        lent.hints.holds("hints", &asked.hints),
        table.holds(&asked.model),
    ];
    compared(case, "run", outcome, parts, || asked.shown())?;
    Ok(ran)
}
