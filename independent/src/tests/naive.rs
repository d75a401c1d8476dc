//! The same rules a second time, on the raw run buffer with ordered sets of
//! numbers and a list of pairs, compared with the library.

use super::*;
use crate::make::*;
use crate::random::Random;
use crate::{Outcome, Rule};
use std::collections::BTreeSet;

type Numbers = BTreeSet<usize>;

fn numbers(words: &[u64]) -> Numbers {
    let mut found = Numbers::new();
    for (at, word) in words.iter().enumerate() {
        for bit in 0..64 {
            if word & (1u64 << bit) != 0 {
                found.insert(64 * at + bit);
            }
        }
    }
    found
}

fn words(numbers: &Numbers) -> [u64; 4] {
    let mut words = [0; 4];
    for s in numbers {
        words[s / 64] += 1u64 << (s % 64);
    }
    words
}

struct Plain {
    n: usize,
    i: Numbers,
    p: Numbers,
    pairs: Vec<(usize, usize)>,
}

impl Plain {
    fn of(model: &Model) -> Plain {
        Plain {
            n: model.states(),
            i: numbers(&model.i.0),
            p: numbers(&model.p.0),
            pairs: model.pairs(),
        }
    }

    fn f(&self, x: &Numbers) -> Numbers {
        let from_x = self.pairs.iter().filter(|pair| x.contains(&pair.0));
        from_x.map(|pair| pair.1).collect()
    }

    fn g(&self, x: &Numbers) -> Numbers {
        let mut all: Numbers = (0..self.n).collect();
        for (from, to) in &self.pairs {
            if !x.contains(to) {
                all.remove(from);
            }
        }
        all
    }
}

fn x(held: &[u64], j: usize) -> Numbers {
    numbers(&held[2 + 4 * j..6 + 4 * j])
}

fn y(held: &[u64], j: usize) -> Numbers {
    numbers(&held[1034 + 4 * j..1038 + 4 * j])
}

fn entry(held: &[u64], plain: &Plain) -> bool {
    if held[0] < 2 || held[0] > plain.n as u64 + 2 || held[1] < 1 || held[1] > held[0] {
        return false;
    }
    let (n, k) = (held[0] as usize, held[1] as usize);
    for (at, &word) in held.iter().enumerate().skip(2) {
        let in_use = if at < 1034 {
            (at - 2) / 4 < n
        } else {
            let j = (at - 1034) / 4;
            k <= j && j < n
        };
        if !in_use && word != 0 {
            return false;
        }
    }
    let xs: Vec<Numbers> = (0..n).map(|j| x(held, j)).collect();
    let ys: Vec<Numbers> = (0..n).map(|j| y(held, j)).collect();
    let states: Numbers = (0..plain.n).collect();
    xs.iter().all(|set| set.is_subset(&states))
        && ys.iter().all(|set| set.is_subset(&states))
        && xs[0].is_empty()
        && (1..n).all(|j| {
            xs[j - 1].is_subset(&xs[j])
                && plain.i.is_subset(&xs[j])
                && plain.f(&xs[j - 1]).is_subset(&xs[j])
        })
        && xs[n - 2].is_subset(&plain.p)
        && (k == n || plain.p.is_subset(&ys[n - 1]))
        && (k + 1..n).all(|j| plain.g(&ys[j]).is_subset(&ys[j - 1]))
        && (k..n).all(|j| !xs[j].is_subset(&ys[j]))
}

/// The run on the raw buffer: the answer and the walk or set.
fn run_plain(plain: &Plain, held: &[u64], hints: &[u64], budget: u64) -> Ran {
    let mut run = PlainRun::begin(plain, held, hints);
    if !entry(held, plain) {
        run.ran.answer.outcome = Outcome::Refused(8);
        return run.ran;
    }
    while !run.concludes() && run.ran.answer.rules_fired != budget {
        run.fire();
    }
    run.ran
}

/// A run under way on a raw buffer that passes the entry check.
struct PlainRun<'a> {
    plain: &'a Plain,
    hints: &'a [u64],
    ran: Ran,
}

impl PlainRun<'_> {
    fn begin<'a>(plain: &'a Plain, held: &[u64], hints: &'a [u64]) -> PlainRun<'a> {
        let answer = RunAnswer {
            outcome: Outcome::Unfinished,
            rules_fired: 0,
            hints_taken: 0,
            hints_used: 0,
        };
        let ran = Ran {
            answer,
            held: held.to_vec(),
            set: [MARK; 4],
            walk: [WALK_MARK; 256],
        };
        PlainRun { plain, hints, ran }
    }

    fn n(&self) -> usize {
        self.ran.held[0] as usize
    }

    fn k(&self) -> usize {
        self.ran.held[1] as usize
    }

    fn x(&self, j: usize) -> Numbers {
        x(&self.ran.held, j)
    }

    fn y(&self, j: usize) -> Numbers {
        y(&self.ran.held, j)
    }

    fn put_x(&mut self, j: usize, set: &Numbers) {
        self.ran.held[2 + 4 * j..6 + 4 * j].copy_from_slice(&words(set));
    }

    fn put_y(&mut self, j: usize, set: &Numbers) {
        self.ran.held[1034 + 4 * j..1038 + 4 * j].copy_from_slice(&words(set));
    }

    /// Is the run concluded?  If so, its verdict and reason are written.
    fn concludes(&mut self) -> bool {
        let n = self.n();
        if let Some(j) = (0..=n - 2).find(|&j| self.x(j + 1).is_subset(&self.x(j))) {
            self.ran.set = words(&self.x(j));
            self.ran.answer.outcome = Outcome::Safe(j as u16);
            return true;
        }
        if self.k() == 1 && !self.plain.i.is_subset(&self.y(1)) {
            self.write_walk();
            self.ran.answer.outcome = Outcome::Reached((n - 1) as u16);
            return true;
        }
        false
    }

    fn write_walk(&mut self) {
        let outside = self.y(1);
        let mut starts = self.plain.i.iter();
        let mut here = *starts.find(|s| !outside.contains(s)).unwrap();
        self.ran.walk[0] = here as u16;
        for j in 2..self.n() {
            let outside = self.y(j);
            let mut pairs = self.plain.pairs.iter();
            here = pairs
                .find(|pair| pair.0 == here && !outside.contains(&pair.1))
                .unwrap()
                .1;
            self.ran.walk[j - 1] = here as u16;
        }
    }

    fn fire(&mut self) {
        self.ran.answer.rules_fired += 1;
        let rule = self.rule_due();
        if rule == Rule::Unfold {
            self.unfold();
            return;
        }
        let hint = self.take_hint().filter(|z| self.allows(rule, z));
        if hint.is_some() {
            self.ran.answer.hints_used += 1;
        }
        let z = hint.unwrap_or_else(|| self.house_choice(rule));
        match rule {
            Rule::Candidate | Rule::Decide => self.hold_y(&z),
            _ => self.conflict(&z),
        }
    }

    fn rule_due(&self) -> Rule {
        let (n, k) = (self.n(), self.k());
        match (k == n, self.x(n - 1).is_subset(&self.plain.p)) {
            (true, true) => Rule::Unfold,
            (true, false) => Rule::Candidate,
            _ if !self.plain.f(&self.x(k - 1)).is_subset(&self.y(k)) => Rule::Decide,
            _ => Rule::Conflict,
        }
    }

    fn take_hint(&mut self) -> Option<Numbers> {
        let at = 4 * self.ran.answer.hints_taken as usize;
        if at < self.hints.len() {
            self.ran.answer.hints_taken += 1;
            Some(numbers(&self.hints[at..at + 4]))
        } else {
            None
        }
    }

    fn allows(&self, rule: Rule, z: &Numbers) -> bool {
        let (n, k, plain) = (self.n(), self.k(), self.plain);
        if z.iter().any(|&s| s >= plain.n) {
            return false;
        }
        match rule {
            Rule::Candidate => plain.p.is_subset(z) && !self.x(n - 1).is_subset(z),
            Rule::Decide => plain.g(&self.y(k)).is_subset(z) && !self.x(k - 1).is_subset(z),
            _ => {
                let both = self.x(k - 1).intersection(z).copied().collect();
                z.is_subset(&self.y(k)) && plain.i.is_subset(z) && plain.f(&both).is_subset(z)
            }
        }
    }

    fn house_choice(&self, rule: Rule) -> Numbers {
        match rule {
            Rule::Candidate => self.plain.p.clone(),
            Rule::Decide => self.plain.g(&self.y(self.k())),
            _ => self.y(self.k()),
        }
    }

    fn unfold(&mut self) {
        self.put_x(self.n(), &(0..self.plain.n).collect());
        self.ran.held[0] += 1;
        self.ran.held[1] += 1;
    }

    /// Candidate and Decide alike: z becomes the y below.
    fn hold_y(&mut self, z: &Numbers) {
        self.put_y(self.k() - 1, z);
        self.ran.held[1] -= 1;
    }

    fn conflict(&mut self, z: &Numbers) {
        let k = self.k();
        for j in 0..=k {
            let both: Numbers = self.x(j).intersection(z).copied().collect();
            self.put_x(j, &both);
        }
        self.put_y(k, &Numbers::new());
        self.ran.held[1] += 1;
    }
}

#[test]
fn the_second_reading_agrees() {
    let mut random = Random::new(51);
    let mut passed = 0;
    for _ in 0..3000 {
        let model = small_model(&mut random, 10);
        let table = model.table();
        let held = any_run_buffer(&mut random, &table);
        let from = crate::run_buffer::take(&held, &table);
        let from = from.unwrap_or(crate::rules::Run::fresh(table.n));
        let hints = any_hints(&mut random, &table, &from);
        let budget = any_budget(&mut random, table.n);
        let plain = Plain::of(&model);
        let expected = run_plain(&plain, &held, &hints, budget);
        let ran = ran_from(&model, &held, &hints, budget);
        assert_eq!(ran, expected);
        if expected.answer.outcome != Outcome::Refused(8) {
            passed += 1;
        }
    }
    assert!(passed > 1000 && passed < 2900, "{passed}");
}

#[test]
fn the_second_entry_check_agrees() {
    let mut random = Random::new(52);
    let (mut good, mut bad) = (0, 0);
    for _ in 0..6000 {
        let model = if random.chance(1, 50) {
            any_model(&mut random)
        } else {
            small_model(&mut random, 12)
        };
        let table = model.table();
        let plain = Plain::of(&model);
        let held = any_good_run(&mut random, &table);
        let damaged = damaged_run(&mut random, &table, &held);
        let passes = entry(&damaged, &plain);
        assert_eq!(crate::run_buffer::take(&damaged, &table).is_some(), passes);
        if passes {
            good += 1;
        } else {
            bad += 1;
        }
    }
    println!("damaged runs: {good} still pass, {bad} do not");
    assert!(good > 200 && bad > 1000, "{good} {bad}");
}
