//! Runs on random tables against breadth-first search, and the laws of
//! hints and budget.

use super::*;
use crate::make::*;
use crate::random::Random;
use crate::rules::{Conclusion, Run};
use crate::run_buffer::{put, take};
use crate::table::Table;
use crate::{count, fresh, single_rule, Outcome, Rule};
use std::slice::Chunks;

fn bound(n: u16) -> u64 {
    let n = u64::from(n);
    2 * n * n + 2 * n
}

/// A run that ended: right verdict, real and shortest walk, closed set,
/// rules within the bound, buffers as document 01 says.
fn check_end(model: &Model, ran: &Ran) {
    assert!(ran.answer.rules_fired <= bound(model.n));
    assert!(ran.answer.hints_used <= ran.answer.hints_taken);
    assert!(ran.answer.hints_taken <= ran.answer.rules_fired);
    match ran.answer.outcome {
        Outcome::Safe(j) => check_safe_end(model, ran, usize::from(j)),
        Outcome::Reached(states) => check_reached_end(model, ran, usize::from(states)),
        other => panic!("the run did not end: {other:?}"),
    }
}

fn check_safe_end(model: &Model, ran: &Ran, j: usize) {
    assert_eq!(model.shortest_walk(), None);
    let set = Set(ran.set);
    assert!(model.i.within(set), "holds every start");
    assert!(set.within(model.p), "holds no bad state");
    for (from, to) in model.pairs() {
        assert!(!set.member(from) || set.member(to), "closed");
    }
    assert!(model.reachable().within(set));
    let table = model.table();
    let after = take(&ran.held, &table).expect("the entry check after a run");
    assert_eq!(after.conclusion(&table), Some(Conclusion::Safe(j)));
    assert_eq!(after.x[j], set);
    assert_eq!(ran.walk, [WALK_MARK; 256]);
}

fn check_reached_end(model: &Model, ran: &Ran, states: usize) {
    assert_eq!(model.shortest_walk(), Some(states), "the fewest states");
    let walk: Vec<usize> = ran.walk[..states].iter().map(|&s| usize::from(s)).collect();
    assert!(walk.iter().all(|&s| s < model.states()));
    assert!(model.i.member(walk[0]), "from a start");
    assert!(!model.p.member(walk[states - 1]), "to a bad state");
    for step in walk.windows(2) {
        assert!(model.has_move(step[0], step[1]), "by moves");
    }
    assert!(ran.walk[states..].iter().all(|&s| s == WALK_MARK));
    assert_eq!(ran.set, [MARK; 4]);
    let table = model.table();
    let after = take(&ran.held, &table).expect("the entry check after a run");
    assert_eq!(after.conclusion(&table), Some(Conclusion::Reached));
    assert_eq!(after.k(), 1);
    assert_eq!(after.n(), states + 1);
}

#[test]
fn verdict_from_fresh_without_hints() {
    let mut random = Random::new(21);
    let (mut safe, mut reached) = (0, 0);
    for _ in 0..3000 {
        let model = any_model(&mut random);
        let ran = ran(&model, &[], bound(model.n));
        check_end(&model, &ran);
        assert_eq!((ran.answer.hints_taken, ran.answer.hints_used), (0, 0));
        match ran.answer.outcome {
            Outcome::Safe(_) => safe += 1,
            _ => reached += 1,
        }
    }
    assert!(safe > 500 && reached > 500, "{safe} {reached}");
}

#[test]
fn verdict_of_small_tables() {
    let mut random = Random::new(22);
    for _ in 0..20000 {
        let model = small_model(&mut random, 7);
        check_end(&model, &ran(&model, &[], bound(model.n)));
    }
}

#[test]
fn verdict_of_all_tables_of_two_states() {
    for moves in 0..16usize {
        for i in 0..4u64 {
            for p in 0..4u64 {
                let mut model = Model::blank(2);
                for bit in 0..4 {
                    if (moves >> bit) & 1 == 1 {
                        model.add_move(bit / 2, bit % 2);
                    }
                }
                model.i = Set([i, 0, 0, 0]);
                model.p = Set([p, 0, 0, 0]);
                check_end(&model, &ran(&model, &[], bound(2)));
            }
        }
    }
}

#[test]
fn verdict_from_any_good_run_with_any_hints() {
    let mut random = Random::new(23);
    let mut used = 0;
    for _ in 0..6000 {
        let model = if random.chance(1, 8) {
            any_model(&mut random)
        } else {
            small_model(&mut random, 24)
        };
        let table = model.table();
        let held = any_good_run(&mut random, &table);
        let hints = any_hints(&mut random, &table, &held);
        let with = ran_from(&model, &put(&held), &hints, bound(model.n));
        let without = ran_from(&model, &put(&held), &[], bound(model.n));
        check_end(&model, &with);
        check_end(&model, &without);
        used += with.answer.hints_used;
    }
    assert!(used > 5000, "{used}");
}

#[test]
fn good_hints_are_all_used() {
    let mut random = Random::new(24);
    for _ in 0..2000 {
        let model = small_model(&mut random, 20);
        let table = model.table();
        let held = any_good_run(&mut random, &table);
        let hints = good_hints(&mut random, &table, &held, 60);
        let ran = ran_from(&model, &put(&held), &hints, u64::MAX);
        assert_eq!(ran.answer.hints_taken, hints.len() as u64 / 4);
        assert_eq!(ran.answer.hints_used, hints.len() as u64 / 4);
        check_end(&model, &ran);
    }
}

#[test]
fn chain_of_256() {
    let model = chain(256);
    let started = std::time::Instant::now();
    let end = ran(&model, &[], u64::MAX);
    println!(
        "chain of 256: {} rules in {:?}",
        end.answer.rules_fired,
        started.elapsed()
    );
    assert_eq!(end.answer.outcome, Outcome::Reached(256));
    let walk: Vec<u16> = (0..256).collect();
    assert_eq!(end.walk.to_vec(), walk);
    check_end(&model, &end);
    // The same chain with its last move gone is safe.
    let mut cut = model.clone();
    cut.moves[4 * 254..4 * 255].copy_from_slice(&[0; 4]);
    check_end(&cut, &ran(&cut, &[], bound(256)));
    // And with one move gone in the middle.
    let mut cut = model;
    cut.moves[4 * 100..4 * 101].copy_from_slice(&[0; 4]);
    check_end(&cut, &ran(&cut, &[], bound(256)));
}

/// "running b1, then b2 with the hints that remain, ends as running b1 + b2
/// does, the numbers added"
#[test]
fn budget_splits() {
    let mut random = Random::new(25);
    for _ in 0..4000 {
        let model = small_model(&mut random, 20);
        let table = model.table();
        let held = put(&any_good_run(&mut random, &table));
        let from = take(&held, &table).unwrap();
        let hints = any_hints(&mut random, &table, &from);
        let b1 = random.below(30) as u64;
        let b2 = match random.below(3) {
            0 => u64::MAX - b1,
            1 => bound(model.n),
            _ => random.below(30) as u64,
        };
        let whole = ran_from(&model, &held, &hints, b1 + b2);
        let first = ran_from(&model, &held, &hints, b1);
        let left = &hints[4 * first.answer.hints_taken as usize..];
        let second = ran_from(&model, &first.held, left, b2);
        assert_eq!(second.held, whole.held);
        assert_eq!(second.set, whole.set);
        assert_eq!(second.walk, whole.walk);
        assert_eq!(second.answer.outcome, whole.answer.outcome);
        let add = |a: fn(&RunAnswer) -> u64| a(&first.answer) + a(&second.answer);
        assert_eq!(add(|a| a.rules_fired), whole.answer.rules_fired);
        assert_eq!(add(|a| a.hints_taken), whole.answer.hints_taken);
        assert_eq!(add(|a| a.hints_used), whole.answer.hints_used);
    }
}

/// "'unfinished' exactly when the published rules under these hints need
/// more than the budget", and the conclusion is tested before the budget.
#[test]
fn budget_at_its_edge() {
    let mut random = Random::new(26);
    for _ in 0..2000 {
        let model = small_model(&mut random, 20);
        let table = model.table();
        let from = any_good_run(&mut random, &table);
        let held = put(&from);
        let hints = any_hints(&mut random, &table, &from);
        let end = ran_from(&model, &held, &hints, u64::MAX);
        let needs = end.answer.rules_fired;
        assert_eq!(ran_from(&model, &held, &hints, needs), end);
        assert_eq!(ran_from(&model, &held, &hints, needs + 1), end);
        if needs > 0 {
            let short = ran_from(&model, &held, &hints, needs - 1);
            assert_eq!(short.answer.outcome, Outcome::Unfinished);
            assert_eq!(short.answer.rules_fired, needs - 1);
            assert_eq!(short.set, [MARK; 4]);
            assert_eq!(short.walk, [WALK_MARK; 256]);
        }
        // A concluded run with budget 0 gives the verdict, changes nothing.
        let again = ran_from(&model, &end.held, &hints, 0);
        assert_eq!(again.answer.outcome, end.answer.outcome);
        assert_eq!(again.answer.rules_fired, 0);
        assert_eq!(again.answer.hints_taken, 0);
        assert_eq!(again.held, end.held);
        assert_eq!(again.set, end.set);
        assert_eq!(again.walk, end.walk);
    }
}

/// "The house choice ... is always allowed", and every rule keeps the entry
/// check.
#[test]
fn house_choice_is_always_allowed() {
    let mut random = Random::new(27);
    let mut fired = [0; 4];
    for _ in 0..1500 {
        let model = if random.chance(1, 6) {
            any_model(&mut random)
        } else {
            small_model(&mut random, 16)
        };
        let table = model.table();
        let mut held = any_good_run(&mut random, &table);
        for _ in 0..60 {
            if held.conclusion(&table).is_some() {
                break;
            }
            let rule = held.rule_due(&table);
            fired[rule as usize] += 1;
            if let Some(house) = held.house_choice(&table, rule) {
                assert!(held.allowed(&table, rule, house), "{rule:?}");
            }
            let z = any_allowed(&mut random, &table, &held, rule).unwrap_or(Set::EMPTY);
            assert!(held.allowed(&table, rule, z), "{rule:?}");
            held.fire(&table, rule, z);
            let words = put(&held);
            assert_eq!(take(&words, &table).as_ref(), Some(&held));
        }
    }
    assert!(fired.iter().all(|&times| times > 500), "{fired:?}");
}

/// A run made of single rules: its buffer, the hints left, the numbers.
struct ByRules<'a> {
    model: &'a Model,
    words: Vec<u64>,
    hints_left: Chunks<'a, u64>,
    fired: u64,
    taken: u64,
    used: u64,
}

impl ByRules<'_> {
    fn call(&mut self, z: Set) -> Result<Rule, u8> {
        let model = self.model;
        single_rule(&model.moves, model.n, model.i, model.p, &mut self.words, z)
    }

    /// The next hint as a proposal, if the rule due takes one and it is left.
    fn fire_hint(&mut self, now: &Run, rule: Rule) -> Option<Result<Rule, u8>> {
        if rule == Rule::Unfold {
            return None;
        }
        let hint = Set::from_words(self.hints_left.next()?);
        self.taken += 1;
        let answer = self.call(hint);
        if answer.is_ok() {
            self.used += 1;
        } else {
            assert_eq!(self.words, put(now));
        }
        Some(answer)
    }

    /// The rule due, with its hint or else the house choice.
    fn fire(&mut self, random: &mut Random, table: &Table, now: &Run) {
        let rule = now.rule_due(table);
        let mut answer = self.fire_hint(now, rule).unwrap_or(Err(9));
        if answer == Err(9) {
            let house = now.house_choice(table, rule).unwrap_or(any_words(random));
            answer = self.call(house);
        }
        assert_eq!(answer, Ok(rule));
        self.fired += 1;
    }

    fn run(&mut self, random: &mut Random, table: &Table, budget: u64) {
        while self.fired < budget {
            let now = take(&self.words, table).unwrap();
            if now.conclusion(table).is_some() {
                assert_eq!(self.call(Set::EMPTY), Err(10));
                break;
            }
            self.fire(random, table, &now);
        }
    }
}

/// A run is its single rules one after the other.
#[test]
fn a_run_is_its_single_rules() {
    let mut random = Random::new(28);
    for _ in 0..800 {
        let model = small_model(&mut random, 16);
        let table = model.table();
        let from = any_good_run(&mut random, &table);
        let hints = any_hints(&mut random, &table, &from);
        let budget = any_budget(&mut random, table.n);
        let ran = ran_from(&model, &put(&from), &hints, budget);
        let mut by_rules = ByRules {
            model: &model,
            words: put(&from).to_vec(),
            hints_left: hints.chunks(4),
            fired: 0,
            taken: 0,
            used: 0,
        };
        by_rules.run(&mut random, &table, budget);
        assert_eq!(by_rules.words, ran.held);
        assert_eq!(ran.answer.rules_fired, by_rules.fired);
        assert_eq!(ran.answer.hints_taken, by_rules.taken);
        assert_eq!(ran.answer.hints_used, by_rules.used);
    }
}

#[test]
fn fresh_run_buffer() {
    for n in [1u16, 2, 3, 63, 64, 65, 128, 255, 256] {
        let words = fresh_run(n);
        assert_eq!(&words[0..2], &[2, 2]);
        assert_eq!(&words[2..6], &[0; 4]);
        assert_eq!(count(Set::from_words(&words[6..10])), n);
        assert_eq!(words[6..10], Set::full_of(usize::from(n)).0);
        assert!(words[10..].iter().all(|&word| word == 0));
        assert_eq!(words, put(&Run::fresh(usize::from(n))).to_vec());
    }
    let mut words = vec![MARK; 2066];
    for n in [0u16, 257, u16::MAX] {
        assert_eq!(fresh(n, &mut words), 2);
        assert_eq!(fresh(n, &mut words[1..]), 7);
    }
    assert_eq!(fresh(3, &mut words[1..]), 7);
    assert!(words.iter().all(|&word| word == MARK));
}

/// How long runs on 256 states take, printed, and never long.
#[test]
fn time_of_runs_on_256_states() {
    let mut random = Random::new(29);
    let mut longest = std::time::Duration::ZERO;
    let mut whole = std::time::Duration::ZERO;
    let (mut rules, mut most) = (0, 0);
    for _ in 0..400 {
        let model = model_of(&mut random, 256);
        let started = std::time::Instant::now();
        let end = ran(&model, &[], bound(256));
        let took = started.elapsed();
        whole += took;
        longest = longest.max(took);
        rules += end.answer.rules_fired;
        most = most.max(end.answer.rules_fired);
    }
    println!("400 runs on 256 states: {whole:?}, longest {longest:?}; {rules} rules, most {most}");
    assert!(longest.as_millis() < 2000);
}
