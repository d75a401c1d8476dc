//! f and g on random and hard tables.

use crate::calls::moves::f_and_g;
use crate::given::{hard_model, model, other_length};
use crate::{Agreed, Case};
use independent::make::{self, Model};
use independent::random::Random;
use independent::Set;

pub fn any_step(case: &mut Case) -> Agreed<()> {
    let model = model(&mut case.random);
    step(case, model)
}

pub fn hard_step(case: &mut Case) -> Agreed<()> {
    let model = hard_model(&mut case.random);
    step(case, model)
}

fn step(case: &mut Case, mut model: Model) -> Agreed<()> {
    let random = &mut case.random;
    let x = argument(random, &model);
    if random.chance(1, 5) {
        model = make::damaged_model(random, &model);
    }
    if random.chance(1, 12) {
        other_length(random, &mut model.moves);
    }
    f_and_g(case, &model.moves, model.n, x)
}

/// A set to take f and g of, sometimes with members from N up.
pub fn argument(random: &mut Random, model: &Model) -> Set {
    let full = Set::full_of(model.states());
    match random.below(10) {
        0 => full,
        1 => model.p,
        2 => make::any_words(random),
        3 => {
            let mut set = make::some_within(random, full);
            set.insert(random.between(model.states().min(255), 255));
            set
        }
        _ => make::some_within(random, full),
    }
}
