//! "Slips that look right": each is shown not to have been made.

use super::*;
use crate::make::{any_allowed, any_good_run, any_model, small_model};
use crate::random::Random;
use crate::rules::Run;
use crate::run_buffer::{put, take};
use crate::{backward, single_rule, turn, Outcome, Rule};

/// "g as 'some move ends in X' ... Dead ends fall out."
#[test]
fn dead_ends_are_in_every_g() {
    let model = Model::of(4, &[(0, 1), (0, 2), (1, 1)], &[0], &[0]);
    let g = |x: &[usize]| backward(&model.moves, 4, set_of(x)).unwrap();
    assert_eq!(g(&[]), set_of(&[2, 3]));
    assert_eq!(g(&[1]), set_of(&[1, 2, 3]));
    assert_eq!(g(&[2]), set_of(&[2, 3]));
    assert_eq!(g(&[1, 2]), set_of(&[0, 1, 2, 3]));
}

/// A Conflict with z meets every x up to x_k, and no other.
fn check_conflict(held: &Run, z: Set, after: &Run) {
    assert_eq!(after.n(), held.n());
    assert_eq!(after.k(), held.k() + 1);
    for j in 0..held.n() {
        if j <= held.k() {
            assert_eq!(after.x[j], held.x[j].meet(z));
        } else {
            assert_eq!(after.x[j], held.x[j]);
        }
    }
}

/// "Conflict meets only x_k with z. The lower x must be met too, or the
/// chain stops rising."
#[test]
fn conflict_meets_every_lower_x() {
    let mut random = Random::new(11);
    let mut lower_changed = 0;
    for _ in 0..600 {
        let model = any_model(&mut random);
        let table = model.table();
        let mut held = any_good_run(&mut random, &table);
        // Follow the run with random allowed choices and look at every
        // Conflict on the way.
        for _ in 0..80 {
            if held.conclusion(&table).is_some() {
                break;
            }
            let rule = held.rule_due(&table);
            let z = any_allowed(&mut random, &table, &held, rule).unwrap_or(Set::EMPTY);
            let mut words = put(&held);
            let answer = single_rule(&model.moves, model.n, model.i, model.p, &mut words, z);
            assert_eq!(answer, Ok(rule));
            let after = take(&words, &table).expect("the entry check after a rule");
            if rule == Rule::Conflict {
                check_conflict(&held, z, &after);
                // With the slip, this x_j would not be within x_(j+1).
                if (0..held.k()).any(|j| !held.x[j].within(z)) {
                    lower_changed += 1;
                }
            }
            held = after;
        }
    }
    assert!(lower_changed > 50, "{lower_changed}");
}

/// "Conflict asks for f(x_(k-1)) within z instead of f(x_(k-1) ∩ z): good
/// hints are turned away."
#[test]
fn conflict_allows_a_z_that_leaves_moves_out() {
    // 0 is the start, 1 moves to 2, 3 is bad and cannot be reached.
    let model = Model::of(4, &[(1, 2)], &[0], &[0, 1, 2]);
    let table = model.table();
    let mut held = Run::fresh(4);
    let p = table.p;
    for rule in [
        Rule::Candidate,
        Rule::Conflict,
        Rule::Unfold,
        Rule::Candidate,
    ] {
        assert_eq!(held.rule_due(&table), rule);
        held.fire(&table, rule, p);
    }
    assert_eq!(held.x[1], set_of(&[0, 1, 2]));
    assert_eq!(held.rule_due(&table), Rule::Conflict);
    let z = set_of(&[0]);
    assert!(!table.f(held.x[1]).within(z));
    let mut words = put(&held);
    let answer = single_rule(&model.moves, 4, model.i, model.p, &mut words, z);
    assert_eq!(answer, Ok(Rule::Conflict));
    // As a hint it is used as well.
    let mut hints = Vec::new();
    for hint in [p, p, p, z] {
        hints.extend_from_slice(&hint.0);
    }
    let ran = ran(&model, &hints, u64::MAX);
    assert_eq!((ran.answer.hints_taken, ran.answer.hints_used), (4, 4));
    assert_eq!(ran.answer.outcome, Outcome::Safe(1));
    assert_eq!(Set(ran.set), z);
}

/// "Calling x_(n-1) the safe set because it lies within P."
#[test]
fn the_last_x_is_not_the_reason() {
    // After two rules of B, x_1 = {0,1} lies within P, yet 2 is reached.
    let ran = ran(&model_b(), &[], 2);
    assert_eq!(ran.answer.outcome, Outcome::Unfinished);
    let table = model_b().table();
    let held = take(&ran.held, &table).unwrap();
    assert_eq!(held.x[1], table.p);
    assert_eq!(held.k(), held.n());
    // And in runs that end safe, x_(n-1) is often not x_j.
    let mut random = Random::new(12);
    let mut differ = 0;
    for _ in 0..2000 {
        let model = small_model(&mut random, 12);
        let table = model.table();
        let held = any_good_run(&mut random, &table);
        let ran = ran_from(&model, &put(&held), &[], u64::MAX);
        if let Outcome::Safe(j) = ran.answer.outcome {
            let after = take(&ran.held, &table).unwrap();
            assert_eq!(Set(ran.set), after.x[usize::from(j)]);
            if *after.x.last().unwrap() != Set(ran.set) {
                differ += 1;
            }
        }
    }
    assert!(differ > 20, "{differ}");
}

/// "A turn by plain subtraction: 179 to -179 becomes -358."
#[test]
fn turn_goes_round() {
    assert_eq!(turn(179, -179), Ok(2));
    assert_eq!(turn(-180, 179), Ok(-1));
    assert_eq!(turn(179, -180), Ok(1));
}
