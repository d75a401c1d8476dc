//! Random sets, numbers of states and angles.

use crate::calls::sets;
use crate::{Agreed, Case};
use independent::make;

pub fn set_calls(case: &mut Case) -> Agreed<()> {
    let any = case.random.word() as u16;
    let near = case.random.between(0, 300) as u16;
    let n = case.random.one_of(&[any, near]);
    sets::full(case, n)?;
    let set = make::any_words(&mut case.random);
    sets::count(case, set)?;
    sets::smallest(case, set)
}

pub fn turns(case: &mut Case) -> Agreed<()> {
    let random = &mut case.random;
    let mut angle = || match random.below(8) {
        0 => random.word() as i16,
        1 => random.one_of(&[-181, -180, 179, 180, 0, 360]),
        _ => random.between(0, 359) as i16 - 180,
    };
    let (a, b) = (angle(), angle());
    sets::turn(case, a, b)
}
