//! Files read and tables written, good and damaged, and both round trips.

use crate::calls::files;
use crate::given::{hard_model, model, other_length, places, WIDE};
use crate::lent::any;
use crate::{Agreed, Case};
use independent::file::MOST_MOVES;
use independent::make::{self, Model};
use independent::random::Random;
use independent::set::PLACES;

/// The longest file.
pub const FILE_BYTES: usize = 18_184;

pub fn read(case: &mut Case) -> Agreed<()> {
    let file = any_file(&mut case.random);
    let before = lent_places(&mut case.random);
    files::read(case, &file, &before).map(drop)
}

fn any_file(random: &mut Random) -> Vec<u8> {
    let length = random.below(200);
    match random.below(16) {
        0 => any(random, length),
        // Random, but with numbers that can be.
        1 => {
            let mut bytes = any::<u8>(random, length);
            bytes.iter_mut().for_each(|byte| *byte &= 3);
            [vec![random.between(1, 4) as u8, 0], bytes].concat()
        }
        2 | 3 => file_model(random).file(),
        4 => {
            let extra = if length < 190 { 1 + length % 9 } else { WIDE };
            let extra = any(random, extra);
            [file_model(random).file(), extra].concat()
        }
        _ => make::any_file(random),
    }
}

/// A model that can be written.
pub fn file_model(random: &mut Random) -> Model {
    let mut model = model(random);
    model.thin_to(random, MOST_MOVES);
    model
}

/// Places to read into, sometimes of a wrong length.
fn lent_places(random: &mut Random) -> Model {
    let mut before = places(random);
    if random.chance(1, 12) {
        spoil_a_length(random, &mut before);
    }
    before
}

pub fn cut_at_each_place(case: &mut Case) -> Agreed<()> {
    let file = make::small_model(&mut case.random, 3).file();
    let before = places(&mut case.random);
    for length in 0..=file.len() {
        files::read(case, &file[..length], &before).map(drop)?;
    }
    Ok(())
}

/// Each byte changed by one, in turn.
pub fn changed_at_each_place(case: &mut Case) -> Agreed<()> {
    let file = make::small_model(&mut case.random, 4).file();
    let before = places(&mut case.random);
    for at in 0..file.len() {
        let mut changed = file.clone();
        let by = case.random.one_of(&[1, u8::MAX]);
        changed[at] = changed[at].wrapping_add(by);
        files::read(case, &changed, &before).map(drop)?;
    }
    Ok(())
}

pub fn write(case: &mut Case) -> Agreed<()> {
    let random = &mut case.random;
    let mut model = if random.chance(1, 6) {
        hard_model(random)
    } else {
        model(random)
    };
    let out = room(random, length_of(&model));
    let before = any(random, out);
    if random.chance(1, 2) {
        model = make::damaged_model(random, &model);
    }
    if random.chance(1, 6) {
        spoil_a_state(random, &mut model);
    }
    if random.chance(1, 8) {
        spoil_a_length(random, &mut model);
    }
    files::write(case, &model, &before).map(drop)
}

/// An angle or a mode that is out of range, of a state if there are states.
fn spoil_a_state(random: &mut Random, model: &mut Model) {
    let s = random.below(model.states().clamp(1, PLACES));
    if random.chance(1, 2) {
        model.angles[s] = random.one_of(&[-181, 180, -32768, 32767]);
    } else {
        model.modes[s] = random.one_of(&[16, 17, 128, 255]);
    }
}

fn spoil_a_length(random: &mut Random, model: &mut Model) {
    match random.below(3) {
        0 => other_length(random, &mut model.moves),
        1 => other_length(random, &mut model.angles),
        _ => other_length(random, &mut model.modes),
    }
}

/// Room for a file: none, one too little, exact, too little, more.
fn room(random: &mut Random, length: usize) -> usize {
    match random.below(40) {
        0..=4 => 0,
        5..=9 => length - 1,
        10..=14 => length,
        15..=19 => random.below(length),
        20 => length + WIDE,
        _ => length + random.below(40),
    }
}

/// The length of a sound model's file.
fn length_of(model: &Model) -> usize {
    let members = model.i.members().count() + model.p.members().count();
    8 + 3 * model.states() + 2 * members + 4 * model.pairs().len().min(MOST_MOVES)
}

pub fn there_and_back(case: &mut Case) -> Agreed<()> {
    let model = file_model(&mut case.random);
    round_trip(case, &model)
}

/// A table written, read and written again.
pub fn round_trip(case: &mut Case, model: &Model) -> Agreed<()> {
    let room = length_of(model) + case.random.below(3);
    let before = any(&mut case.random, room);
    let file = files::write(case, model, &before)?.expect("a model that can be written");
    let places = places(&mut case.random);
    let (read, _) = files::read(case, &file, &places)?.expect("a file that was written");
    if read != *model {
        return Err("call read\na table was written and another one read".into());
    }
    case.seen.also("files", "written and read");
    let again = files::write(case, &read, &before)?;
    if again != Some(file) {
        return Err("call write\na file was read and another one written".into());
    }
    case.seen.also("files", "read and written");
    if again.is_some_and(|file| file.len() == FILE_BYTES) {
        case.seen.also("files", "18184 bytes");
    }
    Ok(())
}
