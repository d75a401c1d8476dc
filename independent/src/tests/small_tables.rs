//! Every row of "Tried on small tables" and the listing of file B.

use super::*;
use crate::{backward, forward, listing, read, turn, Outcome};

fn refusal_of(file: &[u8]) -> (u8, usize) {
    read(file, &mut [0; 1024], &mut [0; 256], &mut [0; 256]).unwrap_err()
}

fn check(ran: &Ran, outcome: Outcome, rules: u64, taken: u64, used: u64) {
    assert_eq!(
        ran.answer,
        RunAnswer {
            outcome,
            rules_fired: rules,
            hints_taken: taken,
            hints_used: used,
        }
    );
}

fn check_safe(ran: &Ran, members: &[usize]) {
    assert_eq!(Set(ran.set), set_of(members));
    assert_eq!(ran.walk, [WALK_MARK; 256]);
}

fn check_walk(ran: &Ran, states: &[u16]) {
    assert_eq!(&ran.walk[..states.len()], states);
    assert!(ran.walk[states.len()..].iter().all(|&s| s == WALK_MARK));
    assert_eq!(ran.set, [MARK; 4]);
}

#[test]
fn f_in_b() {
    let b = model_b();
    assert_eq!(forward(&b.moves, b.n, set_of(&[0, 1])), Ok(set_of(&[1, 2])));
}

#[test]
fn g_in_b() {
    let b = model_b();
    assert_eq!(
        backward(&b.moves, b.n, set_of(&[0, 1])),
        Ok(set_of(&[0, 2]))
    );
}

#[test]
fn a_without_hints() {
    let ran = ran(&model_a(), &[], u64::MAX);
    check(&ran, Outcome::Safe(1), 5, 0, 0);
    check_safe(&ran, &[0, 1]);
}

#[test]
fn a_with_hints() {
    let ran = ran(&model_a(), &[7, 0, 0, 0, 1, 0, 0, 0], u64::MAX);
    check(&ran, Outcome::Safe(2), 8, 2, 1);
    check_safe(&ran, &[0, 1]);
}

#[test]
fn b_budget_10() {
    let ran = ran(&model_b(), &[], 10);
    check(&ran, Outcome::Unfinished, 10, 0, 0);
    assert_eq!(ran.set, [MARK; 4]);
    assert_eq!(ran.walk, [WALK_MARK; 256]);
}

#[test]
fn b_budget_11() {
    let ran = ran(&model_b(), &[], 11);
    check(&ran, Outcome::Reached(3), 11, 0, 0);
    check_walk(&ran, &[0, 1, 2]);
}

#[test]
fn n_3_i_and_p_empty() {
    let ran = ran(&Model::blank(3), &[], u64::MAX);
    check(&ran, Outcome::Safe(0), 2, 0, 0);
    check_safe(&ran, &[]);
}

#[test]
fn n_3_p_full() {
    for i in [vec![], vec![0], vec![1, 2], vec![0, 1, 2]] {
        let ran = ran(&Model::of(3, &[(0, 1)], &i, &[0, 1, 2]), &[], u64::MAX);
        check(&ran, Outcome::Safe(1), 1, 0, 0);
        check_safe(&ran, &[0, 1, 2]);
    }
}

#[test]
fn n_3_i_0_p_empty() {
    let ran = ran(&Model::of(3, &[], &[0], &[]), &[], u64::MAX);
    check(&ran, Outcome::Reached(1), 1, 0, 0);
    check_walk(&ran, &[0]);
}

/// "The case "0 to -180" in document 01 becomes 180." (document 02, 2/12)
#[test]
fn turns() {
    assert_eq!(turn(179, -179), Ok(2));
    assert_eq!(turn(-179, 179), Ok(-2));
    assert_eq!(turn(0, -180), Ok(180));
}

#[test]
fn empty_file() {
    assert_eq!(refusal_of(&[]), (1, 0));
    assert_eq!(listing(&[]), "refused 1 at 0\n");
}

#[test]
fn count_of_states_257() {
    assert_eq!(refusal_of(&[0x01, 0x01]), (2, 0));
    let mut file = FILE_B.to_vec();
    file[0..2].copy_from_slice(&257u16.to_le_bytes());
    assert_eq!(refusal_of(&file), (2, 0));
    assert_eq!(listing(&file), "refused 2 at 0\n");
}

#[test]
fn b_with_last_move_0_to_1() {
    let mut file = FILE_B.to_vec();
    file[27..31].copy_from_slice(&[0, 0, 1, 0]);
    assert_eq!(refusal_of(&file), (5, 27));
    assert_eq!(listing(&file), "refused 5 at 27\n");
}

#[test]
fn b_and_one_byte_more() {
    let mut file = FILE_B.to_vec();
    file.push(0);
    assert_eq!(refusal_of(&file), (6, 31));
    assert_eq!(listing(&file), "refused 6 at 31\n");
}

#[test]
fn listing_of_b() {
    let text = "\
model 3 1 2 2
reached 3 rules 11
1 0 170 0 0
2 1 179 0 9
3 2 -179 1 2
";
    assert_eq!(listing(&FILE_B), text);
}

#[test]
fn listings_of_safe_tables() {
    assert_eq!(
        listing(&model_a().file()),
        "model 3 1 2 2\nsafe 1 rules 5 members 2\n0 1\n"
    );
    assert_eq!(
        listing(&Model::blank(3).file()),
        "model 3 0 0 0\nsafe 0 rules 2 members 0\n\n"
    );
    assert_eq!(
        listing(&Model::of(3, &[], &[0], &[]).file()),
        "model 3 1 0 0\nreached 1 rules 1\n1 0 0 0 0\n"
    );
}

#[test]
fn b_as_read() {
    let b = model_b();
    assert_eq!(b.n, 3);
    assert_eq!(b.i, set_of(&[0]));
    assert_eq!(b.p, set_of(&[0, 1]));
    assert_eq!(b.pairs(), vec![(0, 1), (1, 2)]);
    assert_eq!(b.angles[..4], [170, 179, -179, 0]);
    assert_eq!(b.modes[..4], [0, 0, 1, 0]);
    assert_eq!(b.file(), FILE_B);
}
