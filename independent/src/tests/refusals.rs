//! Refusals of f, g, the single rule and the run: their order, and that
//! they leave every buffer untouched.

use super::*;
use crate::make::*;
use crate::random::Random;
use crate::rules::Run;
use crate::run_buffer::{put, take};
use crate::{backward, forward, single_rule, Outcome, Rule};

#[test]
fn f_and_g_in_order() {
    let b = model_b();
    for call in [forward, backward] {
        let high = set_of(&[3]);
        // Everything wrong, then mended one by one: 7, 2, 13.
        assert_eq!(call(&b.moves[1..], 0, high), Err(7));
        assert_eq!(call(&[], 3, Set::EMPTY), Err(7));
        assert_eq!(call(&b.moves, 0, high), Err(2));
        assert_eq!(call(&b.moves, 257, high), Err(2));
        assert_eq!(call(&b.moves, 3, high), Err(13));
        assert_eq!(call(&b.moves, 2, Set::EMPTY), Err(13));
        assert!(call(&b.moves, 4, high).is_ok());
        // A row from N up that is not empty.
        let mut moves = b.moves.clone();
        moves[4 * 3] = 1;
        assert_eq!(call(&moves, 3, Set::EMPTY), Err(13));
        assert!(call(&moves, 4, Set::EMPTY).is_ok());
        moves[4 * 255 + 3] = 1 << 63;
        assert_eq!(call(&moves, 255, Set::EMPTY), Err(13));
        assert!(call(&moves, 256, Set::EMPTY).is_ok());
    }
}

/// A run and a single rule on the same lent buffers, both of which must
/// refuse with this number and change nothing.
fn both_refuse(model: &Model, held: &[u64], number: u8) {
    let ran = ran_from(model, held, &[], u64::MAX);
    assert_eq!(ran.answer.outcome, Outcome::Refused(number));
    assert_eq!(
        (
            ran.answer.rules_fired,
            ran.answer.hints_taken,
            ran.answer.hints_used
        ),
        (0, 0, 0)
    );
    assert_eq!(ran.held, held);
    assert_eq!(ran.set, [MARK; 4]);
    assert_eq!(ran.walk, [WALK_MARK; 256]);
    let mut words = held.to_vec();
    let answer = single_rule(
        &model.moves,
        model.n,
        model.i,
        model.p,
        &mut words,
        Set::EMPTY,
    );
    assert_eq!(answer, Err(number));
    assert_eq!(words, held);
}

#[test]
fn run_and_single_rule_in_order() {
    // Everything wrong, then mended one by one: 7, 2, 13, 8.
    let mut model = model_b();
    let mut held = fresh_run(3);
    held[10] = 1;
    model.i = set_of(&[3]);
    model.n = 0;
    model.moves.push(0);
    both_refuse(&model, &held, 7);
    model.moves.pop();
    both_refuse(&model, &held[1..], 7);
    both_refuse(&model, &held, 2);
    model.n = 3;
    both_refuse(&model, &held, 13);
    model.i = set_of(&[0]);
    model.p = set_of(&[0, 1, 255]);
    both_refuse(&model, &held, 13);
    model.p = set_of(&[0, 1]);
    both_refuse(&model, &held, 8);
    held[10] = 0;
    assert_eq!(
        ran_from(&model, &held, &[], u64::MAX).answer.outcome,
        Outcome::Reached(3)
    );
}

#[test]
fn run_buffers_of_wrong_length() {
    let model = model_b();
    for (held, hints, set, walk) in [
        (2065, 0, 4, 256),
        (2067, 0, 4, 256),
        (2066, 1, 4, 256),
        (2066, 6, 4, 256),
        (2066, 3, 4, 256),
        (2066, 0, 3, 256),
        (2066, 0, 5, 256),
        (2066, 4, 4, 255),
        (2066, 8, 4, 257),
        (0, 0, 0, 0),
    ] {
        // N is wrong too, but 7 comes first.
        for n in [3, 0] {
            let mut held = vec![MARK; held];
            let mut set = vec![MARK; set];
            let mut walk = vec![WALK_MARK; walk];
            let answer = run(
                &model.moves,
                n,
                model.i,
                model.p,
                &mut held,
                &vec![0; hints],
                1,
                &mut set,
                &mut walk,
            );
            assert_eq!(answer.outcome, Outcome::Refused(7));
            assert!(held.iter().chain(set.iter()).all(|&word| word == MARK));
            assert!(walk.iter().all(|&state| state == WALK_MARK));
        }
    }
}

/// Fire a single rule; a refusal must leave the run buffer untouched.
fn fired(model: &Model, words: &mut [u64], z: Set) -> Result<Rule, u8> {
    let before = words.to_vec();
    let answer = single_rule(&model.moves, model.n, model.i, model.p, words, z);
    if answer.is_err() {
        assert_eq!(words, before);
    }
    answer
}

/// Candidate, Conflict and Unfold, in A from fresh.
fn check_proposals_in_a(model: &Model, words: &mut [u64]) {
    let mut call = |z: Set| fired(model, words, z);
    // Candidate: x_1 within z, P not within z, a member from N up.
    assert_eq!(call(set_of(&[0, 1, 2])), Err(9));
    assert_eq!(call(set_of(&[0])), Err(9));
    assert_eq!(call(set_of(&[0, 1, 3])), Err(9));
    assert_eq!(call(set_of(&[0, 1, 255])), Err(9));
    assert_eq!(call(set_of(&[0, 1])), Ok(Rule::Candidate));
    // Conflict: z not within y_1, I not within z.
    assert_eq!(call(set_of(&[0, 2])), Err(9));
    assert_eq!(call(set_of(&[1])), Err(9));
    assert_eq!(call(set_of(&[0, 255])), Err(9));
    assert_eq!(call(set_of(&[0])), Ok(Rule::Conflict));
    // Unfold ignores the proposal, whatever it holds.
    assert_eq!(call(Set([u64::MAX; 4])), Ok(Rule::Unfold));
}

/// On from x_1 = {0} in A to the conclusion, where 10 comes before 9.
fn check_conclusion_in_a(model: &Model, words: &mut [u64]) {
    let mut call = |z: Set| fired(model, words, z);
    assert_eq!(call(set_of(&[0, 1])), Ok(Rule::Candidate));
    // x_1 = {0}, f(x_1) = {1} within y_2 = {0,1}: Conflict.
    assert_eq!(call(set_of(&[0])), Err(9));
    assert_eq!(call(set_of(&[0, 1])), Ok(Rule::Conflict));
    // Not concluded: x_1 = {0}, x_2 = {0,1}.
    assert_eq!(call(Set::EMPTY), Ok(Rule::Unfold));
    assert_eq!(call(set_of(&[0, 1])), Ok(Rule::Candidate));
    assert_eq!(call(set_of(&[0, 1])), Ok(Rule::Conflict));
    // Concluded: 10 before 9.
    assert_eq!(call(Set([u64::MAX; 4])), Err(10));
    assert_eq!(call(set_of(&[0, 1])), Err(10));
}

/// Decide, in B.
fn check_decide_in_b() {
    let model = model_b();
    let table = model.table();
    let mut held = Run::fresh(3);
    while held.rule_due(&table) != Rule::Decide {
        let rule = held.rule_due(&table);
        let house = held.house_choice(&table, rule).unwrap_or(Set::EMPTY);
        held.fire(&table, rule, house);
    }
    // x_1 = {0,1}, y_2 = P: g(P) = {0,2} within z, x_1 not within z.
    let mut words = put(&held).to_vec();
    let mut call = |z: Set| fired(&model, &mut words, z);
    assert_eq!(call(set_of(&[0, 1, 2])), Err(9));
    assert_eq!(call(set_of(&[0])), Err(9));
    assert_eq!(call(set_of(&[0, 2, 64])), Err(9));
    assert_eq!(call(set_of(&[0, 2])), Ok(Rule::Decide));
}

#[test]
fn single_rule_10_then_9() {
    let model = model_a();
    let mut words = fresh_run(3);
    check_proposals_in_a(&model, &mut words);
    check_conclusion_in_a(&model, &mut words);
    check_decide_in_b();
}

/// One run buffer lent to a run and to a single rule.
struct BothCalls {
    lent: Model,
    held: Vec<u64>,
    ran: Ran,
    single: Result<Rule, u8>,
    /// The run buffer after the single rule.
    words: Vec<u64>,
}

/// Any run buffer, on a model that is damaged at times.
fn any_both_calls(random: &mut Random) -> BothCalls {
    let model = if random.chance(1, 4) {
        any_model(random)
    } else {
        small_model(random, 20)
    };
    let table = model.table();
    let held = any_run_buffer(random, &table).to_vec();
    let lent = if random.chance(1, 4) {
        damaged_model(random, &model)
    } else {
        model
    };
    let hints = any_hints(random, &table, &Run::fresh(table.n));
    let budget = any_budget(random, table.n);
    let ran = ran_from(&lent, &held, &hints, budget);
    let mut words = held.clone();
    let z = any_hint(random, &table);
    let single = single_rule(&lent.moves, lent.n, lent.i, lent.p, &mut words, z);
    BothCalls {
        lent,
        held,
        ran,
        single,
        words,
    }
}

/// A refused run changes nothing, and the single rule is refused likewise.
fn check_refused(calls: &BothCalls, number: u8) {
    assert_eq!(calls.ran.held, calls.held);
    assert_eq!(calls.ran.set, [MARK; 4]);
    assert_eq!(calls.ran.walk, [WALK_MARK; 256]);
    assert_eq!(calls.single, Err(number));
}

/// What is not refused keeps the entry check.
fn check_not_refused(calls: &BothCalls) {
    let table = calls.lent.table();
    let after = take(&calls.ran.held, &table).expect("the entry check after a run");
    assert_eq!(put(&after).to_vec(), calls.ran.held);
    match calls.single {
        Err(number) => assert!(number == 9 || number == 10),
        Ok(_) => assert!(take(&calls.words, &table).is_some()),
    }
}

#[test]
fn damaged_models_and_runs_change_nothing() {
    let mut random = Random::new(41);
    let mut seen = [0; 14];
    for _ in 0..6000 {
        let calls = any_both_calls(&mut random);
        if let Outcome::Refused(number) = calls.ran.answer.outcome {
            seen[usize::from(number)] += 1;
            check_refused(&calls, number);
        } else {
            seen[0] += 1;
            check_not_refused(&calls);
        }
        if let Err(number) = calls.single {
            assert_eq!(calls.words, calls.held);
            if number >= 9 && number != 13 {
                seen[usize::from(number)] += 1;
            }
        }
    }
    println!("run and single rule: {seen:?}");
    for number in [0, 2, 8, 9, 10, 13] {
        assert!(seen[number] > 100, "{seen:?}");
    }
    // Unfold at n = 258 never comes: such a run has a conclusion.
    assert_eq!(seen[11], 0);
}

/// A run buffer with n = N+2 is always concluded.
#[test]
fn the_longest_runs_are_concluded() {
    let mut random = Random::new(42);
    let mut longest = 0;
    for _ in 0..4000 {
        let model = small_model(&mut random, 5);
        let table = model.table();
        let held = any_built_run(&mut random, &table);
        if held.n() == table.n + 2 {
            longest += 1;
            assert!(held.conclusion(&table).is_some());
        }
    }
    assert!(longest > 100, "{longest}");
    // n = 258 with 256 states: all x equal to the full set from x_1 on.
    let model = Model {
        p: Set::full_of(256),
        ..Model::blank(256)
    };
    let mut held = Run::fresh(256);
    while held.n() < 258 {
        held.x.push(Set::full_of(256));
    }
    let ran = ran_from(&model, &put(&held), &[], 5);
    assert_eq!(ran.answer.outcome, Outcome::Safe(1));
    held.x.push(Set::full_of(256));
    assert_eq!(held.n(), 259);
    let mut words = put(&Run::fresh(256)).to_vec();
    words[0] = 259;
    words[1] = 259;
    both_refuse(&model, &words, 8);
}
