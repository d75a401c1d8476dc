//! Refusals of the calls on a second table: their order, and that they leave
//! every buffer untouched.

use super::*;
use crate::make::{any_model, damaged_model, disagreeing_second};
use crate::random::Random;
use crate::{add, backward_by_second, into, remove, second};

/// All that the calls on both tables are given.
#[derive(Clone, PartialEq, Eq, Debug)]
struct Given {
    n: u16,
    moves: Vec<u64>,
    second: Vec<u64>,
    x: Set,
    from: u16,
    to: u16,
}

impl Given {
    /// Nothing wrong: the model and its second table, x its safe states.
    fn of(model: &Model, from: u16, to: u16) -> Given {
        Given {
            n: model.n,
            moves: model.moves.clone(),
            second: model.second(),
            x: model.p,
            from,
            to,
        }
    }

    /// What `second`, `into` `from`, `add`, `remove` and g answer, 0 for no
    /// refusal.  A call that is refused must change nothing.
    fn answers(&self) -> [u8; 5] {
        [
            self.answer(|g| second(&g.moves, g.n, &mut g.second)),
            self.answer(|g| into(&g.moves, &g.second, g.n, g.from).map(drop)),
            self.answer(|g| add(&mut g.moves, &mut g.second, g.n, g.from, g.to)),
            self.answer(|g| remove(&mut g.moves, &mut g.second, g.n, g.from, g.to)),
            self.answer(|g| backward_by_second(&g.moves, &g.second, g.n, g.x).map(drop)),
        ]
    }

    fn answer(&self, call: fn(&mut Given) -> Result<(), u8>) -> u8 {
        let mut given = self.clone();
        match call(&mut given) {
            Ok(()) => 0,
            Err(number) => {
                assert_eq!(given, *self);
                number
            }
        }
    }
}

/// Everything wrong, then mended one by one: 7, 2, 13, 14, 4, 15.
#[test]
fn in_order() {
    let mut given = Given::of(&model_b(), 3, 2);
    given.moves[12] = 1;
    given.second[1023] = 1 << 63;
    given.x = set_of(&[3]);
    given.n = 0;
    given.moves.push(0);
    assert_eq!(given.answers(), [7; 5]);
    given.moves.pop();
    given.second.pop();
    assert_eq!(given.answers(), [7; 5]);
    given.second.push(1 << 63);
    assert_eq!(given.answers(), [2; 5]);
    given.n = 257;
    assert_eq!(given.answers(), [2; 5]);
    given.n = 3;
    assert_eq!(given.answers(), [13; 5]);
    given.moves[12] = 0;
    // x has a member from N up, which g alone is given; 13 before 14.
    assert_eq!(given.answers(), [0, 14, 14, 14, 13]);
    given.x = set_of(&[0, 1]);
    assert_eq!(given.answers(), [0, 14, 14, 14, 14]);
    given.second[1023] = 0;
    assert_eq!(given.answers(), [0, 4, 4, 4, 0]);
    // 0 to 2 is not there, 0 to 1 is.
    given.from = 0;
    assert_eq!(given.answers(), [0, 0, 0, 15, 0]);
    given.to = 1;
    assert_eq!(given.answers(), [0, 0, 15, 0, 0]);
    given.to = 3;
    assert_eq!(given.answers(), [0, 0, 4, 4, 0]);
}

#[test]
fn state_numbers_of_n_or_more() {
    let b = model_b();
    for high in [3, 4, 64, 255, 256, 259, 32768, 65535] {
        assert_eq!(Given::of(&b, high, 0).answers(), [0, 4, 4, 4, 0]);
        assert_eq!(Given::of(&b, 0, high).answers(), [0, 0, 4, 4, 0]);
        assert_eq!(Given::of(&b, high, high).answers(), [0, 4, 4, 4, 0]);
    }
    let all = Model::blank(256);
    assert_eq!(Given::of(&all, 255, 255).answers(), [0, 0, 0, 15, 0]);
    assert_eq!(Given::of(&all, 256, 255).answers(), [0, 4, 4, 4, 0]);
}

#[test]
fn tables_of_wrong_length() {
    for length in [0, 4, 1020, 1023, 1025, 1028, 2048] {
        let mut given = Given::of(&model_b(), 0, 2);
        given.second.resize(length, 0);
        assert_eq!(given.answers(), [7; 5]);
        let mut given = Given::of(&model_b(), 0, 2);
        given.moves.resize(length, 0);
        assert_eq!(given.answers(), [7; 5]);
        given.second.resize(length, 0);
        assert_eq!(given.answers(), [7; 5]);
    }
}

/// Rows that are not sound, though the second table agrees with them.
#[test]
fn rows_not_sound() {
    for (from, to) in [(0, 3), (3, 0), (2, 255), (255, 2), (255, 255)] {
        let mut b = model_b();
        b.add_move(from, to);
        assert_eq!(Given::of(&b, 0, 2).answers(), [13; 5]);
    }
}

/// "when the two tables disagree in any row or column up to 255"
#[test]
fn one_bit_in_row_or_column_255_or_on_the_diagonal() {
    for at in 0..256 {
        for (row, column) in [(255, at), (at, 255), (at, at)] {
            let mut given = Given::of(&model_b(), 0, 2);
            given.second[4 * row + column / 64] ^= 1 << (column % 64);
            assert_eq!(given.answers(), [0, 14, 14, 14, 14]);
        }
    }
}

/// A move in the one table alone, either way round.
#[test]
fn one_move_more_or_less() {
    let b = model_b();
    for (from, to) in [(0, 1), (1, 2), (0, 2), (2, 0), (0, 0)] {
        let mut given = Given::of(&b, 0, 2);
        given.moves[4 * from] ^= 1 << to;
        assert_eq!(given.answers(), [0, 14, 14, 14, 14]);
    }
    // The move table lent as the second table too.
    let mut given = Given::of(&b, 0, 2);
    given.second = given.moves.clone();
    assert_eq!(given.answers(), [0, 14, 14, 14, 14]);
}

#[test]
fn damaged_tables_change_nothing() {
    let mut random = Random::new(53);
    let mut seen = [0; 16];
    for _ in 0..3000 {
        let model = any_model(&mut random);
        let lent = if random.chance(1, 3) {
            damaged_model(&mut random, &model)
        } else {
            model
        };
        let (from, to) = (random.below(300) as u16, random.below(300) as u16);
        let mut given = Given::of(&lent, from, to);
        let disagree = random.chance(1, 2);
        if disagree {
            given.second = disagreeing_second(&mut random, &lent);
        }
        for (call, answer) in given.answers().into_iter().enumerate() {
            seen[usize::from(answer)] += 1;
            // Tables that disagree never get by; only `second` does not look.
            assert!(!disagree || call == 0 || [2, 13, 14].contains(&answer));
        }
    }
    println!("calls on a second table: {seen:?}");
    for number in [0, 2, 4, 13, 14, 15] {
        assert!(seen[number] > 100, "{seen:?}");
    }
}
