//! "A run buffer kept across an edit goes through the entry check again, so it
//! may now get 8; demands 2 and 3 read over the edited table."

use super::*;
use crate::make::*;
use crate::random::Random;
use crate::run_buffer::put;
use crate::{add, remove, Outcome};

/// The model with the move added, by the call.
fn added(model: &Model, from: u16, to: u16) -> Model {
    let mut edited = model.clone();
    assert_eq!(
        add(&mut edited.moves, &mut model.second(), model.n, from, to),
        Ok(())
    );
    edited
}

/// The model with the move removed, by the call.
fn removed(model: &Model, from: u16, to: u16) -> Model {
    let mut edited = model.clone();
    assert_eq!(
        remove(&mut edited.moves, &mut model.second(), model.n, from, to),
        Ok(())
    );
    edited
}

/// The run buffer after at most so many rules without hints.
fn kept(model: &Model, budget: u64) -> Vec<u64> {
    ran(model, &[], budget).held
}

fn check(ran: &Ran, outcome: Outcome, rules: u64) {
    assert_eq!(
        (ran.answer.outcome, ran.answer.rules_fired),
        (outcome, rules)
    );
}

/// A run buffer without y: n, and x_1 and x_2 of at most three states.
fn check_held(held: &[u64], n: u64, x_1: u64, x_2: u64) {
    let mut expected = vec![0; RUN_WORDS];
    (expected[0], expected[1]) = (n, n);
    (expected[6], expected[10]) = (x_1, x_2);
    assert_eq!(held, expected);
}

/// x_1 = x_2 = {0,1}; with 0 to 2, f(x_1) is {0,1,2} and not within x_2.
#[test]
fn a_ended_then_0_to_2_added() {
    let kept = kept(&model_a(), u64::MAX);
    check_held(&kept, 3, 3, 3);
    let edited = added(&model_a(), 0, 2);
    let refused = ran_from(&edited, &kept, &[], u64::MAX);
    check(&refused, Outcome::Refused(8), 0);
    assert_eq!(refused.held, kept);
    let fresh = ran(&edited, &[], u64::MAX);
    check(&fresh, Outcome::Reached(2), 5);
    assert_eq!(fresh.walk[..2], [0, 2]);
}

/// With 0 to 0, f(x_1) is {0,1} still.
#[test]
fn a_ended_then_0_to_0_added() {
    let kept = kept(&model_a(), u64::MAX);
    let edited = added(&model_a(), 0, 0);
    let again = ran_from(&edited, &kept, &[], 0);
    check(&again, Outcome::Safe(1), 0);
    assert_eq!((Set(again.set), &again.held), (set_of(&[0, 1]), &kept));
    check(&ran(&edited, &[], u64::MAX), Outcome::Safe(1), 5);
}

/// Without 1 to 0, f(x_1) is {1}.
#[test]
fn a_ended_then_1_to_0_removed() {
    let kept = kept(&model_a(), u64::MAX);
    let edited = removed(&model_a(), 1, 0);
    let again = ran_from(&edited, &kept, &[], 0);
    check(&again, Outcome::Safe(1), 0);
    assert_eq!((Set(again.set), &again.held), (set_of(&[0, 1]), &kept));
}

/// x_2 is still full: Candidate, then Decide with g(P) = {1,2}.
#[test]
fn a_after_three_rules_then_0_to_2_added() {
    let kept = kept(&model_a(), 3);
    check_held(&kept, 3, 3, 7);
    let edited = added(&model_a(), 0, 2);
    check(&ran_from(&edited, &kept, &[], 1), Outcome::Unfinished, 1);
    let ended = ran_from(&edited, &kept, &[], u64::MAX);
    check(&ended, Outcome::Reached(2), 2);
    assert_eq!(ended.walk[..2], [0, 2]);
}

/// y_2 = {0,1} and y_1 = {0,2}; without 1 to 2, g(y_2) is {0,1,2} and not
/// within y_1.
#[test]
fn b_after_five_rules_then_1_to_2_removed() {
    let kept = kept(&model_b(), 5);
    assert_eq!((kept[0], kept[1]), (3, 1));
    assert_eq!((kept[1038], kept[1042]), (5, 3));
    let edited = removed(&model_b(), 1, 2);
    let refused = ran_from(&edited, &kept, &[], u64::MAX);
    check(&refused, Outcome::Refused(8), 0);
    assert_eq!(refused.held, kept);
    let fresh = ran(&edited, &[], u64::MAX);
    check(&fresh, Outcome::Safe(1), 5);
    assert_eq!(Set(fresh.set), set_of(&[0, 1]));
}

/// One to six random edits.
fn edited(random: &mut Random, model: &Model) -> Model {
    let mut edited = model.clone();
    for _ in 0..random.between(1, 6) {
        let (from, to) = (random.below(model.states()), random.below(model.states()));
        let edit = if edited.has_move(from, to) {
            removed
        } else {
            added
        };
        edited = edit(&edited, from as u16, to as u16);
    }
    edited
}

/// On random tables the kept buffer, where it is taken, ends as a fresh run.
#[test]
fn kept_and_fresh_end_alike() {
    let mut random = Random::new(54);
    let (mut refused, mut safe, mut reached) = (0, 0, 0);
    for _ in 0..6000 {
        let model = small_model(&mut random, 24);
        let held = put(&any_good_run(&mut random, &model.table()));
        let edited = edited(&mut random, &model);
        let kept = ran_from(&edited, &held, &[], u64::MAX).answer.outcome;
        let fresh = ran(&edited, &[], u64::MAX).answer.outcome;
        match (kept, fresh) {
            (Outcome::Refused(8), _) => refused += 1,
            (Outcome::Safe(_), Outcome::Safe(_)) => safe += 1,
            (Outcome::Reached(a), Outcome::Reached(b)) if a == b => reached += 1,
            _ => panic!("kept {kept:?}, fresh {fresh:?}"),
        }
    }
    println!("kept runs: {refused} {safe} {reached}");
    assert!(refused > 200 && safe > 500 && reached > 500);
}
