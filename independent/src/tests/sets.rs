//! Sets, f and g against plain definitions on bits and pairs.

use crate::make::{any_model, any_words, some_of};
use crate::random::Random;
use crate::{backward, count, forward, full, smallest, Set};

#[test]
fn full_sets() {
    assert_eq!(full(0), Err(2));
    assert_eq!(full(1), Ok(Set([1, 0, 0, 0])));
    assert_eq!(full(3), Ok(Set([7, 0, 0, 0])));
    assert_eq!(full(63), Ok(Set([u64::MAX >> 1, 0, 0, 0])));
    assert_eq!(full(64), Ok(Set([u64::MAX, 0, 0, 0])));
    assert_eq!(full(65), Ok(Set([u64::MAX, 1, 0, 0])));
    assert_eq!(full(128), Ok(Set([u64::MAX, u64::MAX, 0, 0])));
    assert_eq!(
        full(255),
        Ok(Set([u64::MAX, u64::MAX, u64::MAX, u64::MAX >> 1]))
    );
    assert_eq!(full(256), Ok(Set([u64::MAX; 4])));
    for n in [257, 258, 512, u16::MAX] {
        assert_eq!(full(n), Err(2));
    }
    for n in 1..=256 {
        assert_eq!(count(full(n).unwrap()), n);
        assert_eq!(smallest(full(n).unwrap()), Some(0));
    }
}

#[test]
fn count_and_smallest_of_any_four_words() {
    let mut random = Random::new(1);
    assert_eq!(count(Set::EMPTY), 0);
    assert_eq!(smallest(Set::EMPTY), None);
    for _ in 0..2000 {
        let set = any_words(&mut random);
        let ones: u32 = set.0.iter().map(|word| word.count_ones()).sum();
        assert_eq!(u32::from(count(set)), ones);
        let mut first = None;
        for (at, word) in set.0.iter().enumerate() {
            if *word != 0 && first.is_none() {
                first = Some(64 * at as u16 + word.trailing_zeros() as u16);
            }
        }
        assert_eq!(smallest(set), first);
    }
}

#[test]
fn set_operations_state_by_state() {
    let mut random = Random::new(2);
    for _ in 0..500 {
        let (a, b) = (any_words(&mut random), any_words(&mut random));
        for s in 0..256 {
            assert_eq!(a.meet(b).member(s), a.member(s) && b.member(s));
            assert_eq!(a.join(b).member(s), a.member(s) || b.member(s));
            assert_eq!(a.minus(b).member(s), a.member(s) && !b.member(s));
        }
        let within = (0..256).all(|s| !a.member(s) || b.member(s));
        assert_eq!(a.within(b), within);
        assert!(a.meet(b).within(a) && a.within(a.join(b)));
    }
}

#[test]
fn f_and_g_by_pairs_and_as_adjoints() {
    let mut random = Random::new(3);
    for _ in 0..400 {
        let model = any_model(&mut random);
        let n = model.states();
        let pairs = model.pairs();
        for _ in 0..5 {
            let part = random.below(17);
            let x = some_of(&mut random, n, part, 16);
            let part = random.below(17);
            let y = some_of(&mut random, n, part, 16);
            let fx = forward(&model.moves, model.n, x).unwrap();
            let gy = backward(&model.moves, model.n, y).unwrap();
            let mut into = Set::EMPTY;
            let mut from = full(model.n).unwrap();
            for &(a, b) in &pairs {
                if x.member(a) {
                    into.insert(b);
                }
                if !y.member(b) {
                    from.remove(a);
                }
            }
            assert_eq!(fx, into);
            assert_eq!(gy, from);
            // "f(X) is within Y exactly when X is within g(Y)."
            assert_eq!(fx.within(y), x.within(gy));
        }
    }
}
