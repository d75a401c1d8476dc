//! Files: round trips, damage, order of refusals in reading and writing.

use super::*;
use crate::make::*;
use crate::random::Random;
use crate::{count, listing, read, write};

/// Read into marked buffers.
type Got = (
    Result<crate::Read, (u8, usize)>,
    Vec<u64>,
    Vec<i16>,
    Vec<u8>,
);

fn got(file: &[u8]) -> Got {
    let mut moves = vec![MARK; 1024];
    let mut angles = vec![-999; 256];
    let mut modes = vec![0xEE; 256];
    let answer = read(file, &mut moves, &mut angles, &mut modes);
    (answer, moves, angles, modes)
}

fn untouched(got: &Got) -> bool {
    got.1.iter().all(|&word| word == MARK)
        && got.2.iter().all(|&angle| angle == -999)
        && got.3.iter().all(|&mode| mode == 0xEE)
}

/// Reading the file gives the model.
fn check_read_back(file: &[u8], model: &Model) {
    let (answer, moves, angles, modes) = got(file);
    let answer = answer.unwrap();
    assert_eq!(answer.n, model.n);
    assert_eq!(answer.starts, model.i);
    assert_eq!(answer.safe, model.p);
    assert_eq!(answer.moves, model.pairs().len());
    assert_eq!(moves, model.moves);
    assert_eq!(angles, model.angles);
    assert_eq!(modes, model.modes);
}

#[test]
fn written_then_read() {
    let mut random = Random::new(31);
    for _ in 0..1500 {
        let model = any_file_model(&mut random);
        let file = model.file();
        let moves = model.pairs().len();
        let (starts, safe) = (count(model.i), count(model.p));
        let length =
            8 + 3 * model.states() + 2 * usize::from(starts) + 2 * usize::from(safe) + 4 * moves;
        assert_eq!(file.len(), length);
        assert!(file.len() <= 18_184);
        check_read_back(&file, &model);
    }
}

/// "a file read in writes out the same bytes", and a refused one changes
/// nothing.
#[test]
fn read_then_written() {
    let mut random = Random::new(32);
    let mut seen = [0; 8];
    for _ in 0..30000 {
        let file = any_file(&mut random);
        let read = got(&file);
        match read.0 {
            Ok(answer) => {
                seen[0] += 1;
                let mut out = vec![0x5A; 18_184];
                let length = write(
                    answer.n,
                    answer.starts,
                    answer.safe,
                    &read.1,
                    &read.2,
                    &read.3,
                    &mut out,
                )
                .unwrap();
                assert_eq!(out[..length], file);
                assert!(out[length..].iter().all(|&byte| byte == 0x5A));
            }
            Err((number, offset)) => {
                assert!(untouched(&read));
                assert!((1..=6).contains(&number));
                assert!(offset <= file.len());
                seen[usize::from(number)] += 1;
                if file.len() < 200 {
                    let text = listing(&file);
                    assert_eq!(text, format!("refused {number} at {offset}\n"));
                }
            }
        }
    }
    println!("read: good {}, refused 1 to 6 {:?}", seen[0], &seen[1..7]);
    assert!(seen[..7].iter().all(|&times| times > 100), "{seen:?}");
}

/// Where the counts and entries of a model's file begin, and where it ends.
fn begins_and_end(model: &Model) -> (Vec<usize>, usize) {
    let mut begins = vec![0];
    let mut at = 2;
    for _ in 0..model.states() {
        begins.push(at);
        at += 3;
    }
    for set in [model.i, model.p] {
        begins.push(at);
        at += 2;
        for _ in 0..count(set) {
            begins.push(at);
            at += 2;
        }
    }
    begins.push(at);
    at += 2;
    for _ in model.pairs() {
        begins.push(at);
        at += 4;
    }
    (begins, at)
}

/// Every cut of a file is refused with 1 at the count or entry cut, and
/// every extension with 6 at its end.
#[test]
fn cuts_and_extensions() {
    let mut random = Random::new(33);
    for _ in 0..100 {
        let mut model = small_model(&mut random, 9);
        model.thin_to(&mut random, 20);
        let file = model.file();
        let (begins, end) = begins_and_end(&model);
        assert_eq!(end, file.len());
        for cut in 0..file.len() {
            let begin = *begins.iter().filter(|&&begin| begin <= cut).max().unwrap();
            let read = got(&file[..cut]);
            assert_eq!(read.0, Err((1, begin)));
            assert!(untouched(&read));
        }
        let mut longer = file.clone();
        longer.extend_from_slice(&[0; 3]);
        assert_eq!(got(&longer).0, Err((6, file.len())));
    }
}

/// The refusal of a file, which must leave every buffer untouched.
fn refusal(file: &[u8]) -> (u8, usize) {
    let read = got(file);
    assert!(untouched(&read));
    read.0.unwrap_err()
}

/// File B with these bytes at this place.
fn b_with(at: usize, bytes: &[u8]) -> Vec<u8> {
    let mut file = FILE_B.to_vec();
    file[at..at + bytes.len()].copy_from_slice(bytes);
    file
}

fn check_counts_refused() {
    assert_eq!(refusal(&b_with(0, &[0, 0])), (2, 0));
    assert_eq!(refusal(&b_with(0, &[1, 1])), (2, 0));
    assert_eq!(refusal(&b_with(11, &[4, 0])), (2, 11));
    assert_eq!(refusal(&b_with(15, &[4, 0])), (2, 15));
    assert_eq!(refusal(&b_with(21, &[1, 16])), (2, 21));
    assert_eq!(refusal(&b_with(21, &[0, 16])), (1, 31));
    assert_eq!(refusal(&[5]), (1, 0));
}

fn check_angles_and_modes_refused() {
    assert_eq!(refusal(&b_with(2, &[180, 0])), (3, 2));
    assert_eq!(refusal(&b_with(2, &[0x4B, 0xFF])), (3, 2));
    assert!(got(&b_with(2, &[0x4C, 0xFF])).0.is_ok());
    assert_eq!(refusal(&b_with(7, &[16])), (3, 5));
    assert!(got(&b_with(7, &[15])).0.is_ok());
}

/// A state number before the rise: entry 4 then 5.
fn check_state_numbers_refused() {
    assert_eq!(refusal(&b_with(13, &[3, 0])), (4, 13));
    assert_eq!(refusal(&b_with(19, &[3, 0])), (4, 19));
    assert_eq!(refusal(&b_with(19, &[0, 0])), (5, 19));
    assert_eq!(refusal(&b_with(17, &[1, 0])), (5, 19));
}

fn check_moves_refused() {
    assert_eq!(refusal(&b_with(23, &[3, 0])), (4, 23));
    assert_eq!(refusal(&b_with(25, &[3, 0])), (4, 23));
    assert_eq!(refusal(&b_with(27, &[0, 0, 3, 0])), (4, 27));
    assert_eq!(refusal(&b_with(27, &[0, 0, 1, 0])), (5, 27));
    assert_eq!(refusal(&b_with(27, &[0, 0, 0, 0])), (5, 27));
    assert!(got(&b_with(27, &[0, 0, 2, 0])).0.is_ok());
    assert!(got(&b_with(27, &[1, 0, 0, 0])).0.is_ok());
}

#[test]
fn reading_refusals_in_order() {
    check_counts_refused();
    check_angles_and_modes_refused();
    check_state_numbers_refused();
    check_moves_refused();
    // The first in file order.
    let mut file = b_with(13, &[9, 0]);
    file[27] = 9;
    file.push(0);
    assert_eq!(refusal(&file), (4, 13));
    // 1 before 3: an entry cut short with a bad angle.
    assert_eq!(refusal(&[1, 0, 0xFF, 0x7F]), (1, 2));
}

#[test]
fn reading_buffers_of_wrong_length() {
    for (moves, angles, modes) in [
        (1023, 256, 256),
        (1025, 256, 256),
        (1024, 255, 256),
        (1024, 257, 256),
        (1024, 256, 255),
        (1024, 256, 0),
        (0, 0, 0),
    ] {
        let mut moves = vec![MARK; moves];
        let mut angles = vec![-999; angles];
        let mut modes = vec![0xEE; modes];
        for file in [&FILE_B[..], &[], &[1, 1]] {
            let answer = read(file, &mut moves, &mut angles, &mut modes);
            assert_eq!(answer, Err((7, 0)));
        }
        assert!(moves.iter().all(|&word| word == MARK));
        assert!(angles.iter().all(|&angle| angle == -999));
        assert!(modes.iter().all(|&mode| mode == 0xEE));
    }
}

/// Write the model; a refusal must leave the output untouched.
fn wrote(model: &Model, out: &mut [u8]) -> Result<usize, u8> {
    let before = out.to_vec();
    let answer = write(
        model.n,
        model.i,
        model.p,
        &model.moves,
        &model.angles,
        &model.modes,
        out,
    );
    if answer.is_err() {
        assert_eq!(out, before);
    }
    answer
}

/// 256 states, each with moves to the first `targets` states.
fn model_of_moves_to_the_first(targets: usize) -> Model {
    let mut model = Model::blank(256);
    for s in 0..256 {
        for t in 0..targets {
            model.add_move(s, t);
        }
    }
    model
}

/// Every fault at once, then mended one by one, up to 2 for moves.
fn check_faults_mended_one_by_one() {
    let mut model = model_of_moves_to_the_first(17);
    model.n = 0;
    model.angles[3] = 180;
    model.modes.push(0);
    assert_eq!(wrote(&model, &mut []), Err(7));
    model.modes.pop();
    assert_eq!(wrote(&model, &mut []), Err(2));
    model.n = 255;
    assert_eq!(wrote(&model, &mut []), Err(13));
    model.n = 256;
    assert_eq!(wrote(&model, &mut []), Err(3));
    model.angles[3] = 179;
    model.modes[3] = 16;
    assert_eq!(wrote(&model, &mut []), Err(3));
    model.modes[3] = 15;
    assert_eq!(wrote(&model, &mut []), Err(2));
}

/// With the most moves: 12 for too little room, then the largest file.
fn check_room_for_the_largest(out: &mut [u8]) {
    let mut model = model_of_moves_to_the_first(16);
    model.angles[3] = 179;
    model.modes[3] = 15;
    assert_eq!(model.pairs().len(), 4096);
    let length = 8 + 3 * 256 + 4 * 4096;
    assert_eq!(wrote(&model, &mut []), Err(12));
    assert_eq!(wrote(&model, &mut out[..length - 1]), Err(12));
    assert_eq!(wrote(&model, &mut out[..length]), Ok(length));
    model.i = Set::full_of(256);
    model.p = Set::full_of(256);
    assert_eq!(wrote(&model, out), Ok(18_184));
    assert!(out[18_184..].iter().all(|&byte| byte == 0x5A));
    let read = got(&out[..18_184]);
    assert_eq!(read.0.unwrap().moves, 4096);
    assert_eq!(read.1, model.moves);
}

/// An angle or mode from place N up: 13, even when out of range too.
fn check_labels_from_n_up(out: &mut [u8]) {
    let mut small = model_b();
    small.angles[3] = 180;
    assert_eq!(wrote(&small, out), Err(13));
    small.angles[3] = 0;
    small.modes[255] = 1;
    small.angles[0] = 180;
    assert_eq!(wrote(&small, out), Err(13));
    small.modes[255] = 0;
    assert_eq!(wrote(&small, out), Err(3));
}

#[test]
fn writing_refusals_in_order() {
    let mut out = vec![0x5A; 20_000];
    check_faults_mended_one_by_one();
    check_room_for_the_largest(&mut out);
    check_labels_from_n_up(&mut out);
}

#[test]
fn writing_damaged_models() {
    let mut random = Random::new(34);
    let mut seen = [0; 14];
    for _ in 0..4000 {
        let model = any_file_model(&mut random);
        let damaged = damaged_model(&mut random, &model);
        let room = random.one_of(&[0, 10, 100, 1000, 18_184, 20_000]);
        let mut out = vec![0x5A; room];
        match wrote(&damaged, &mut out) {
            Ok(length) => {
                seen[0] += 1;
                check_read_back(&out[..length], &damaged);
            }
            Err(number) => {
                seen[usize::from(number)] += 1;
                assert!(out.iter().all(|&byte| byte == 0x5A));
            }
        }
    }
    println!("write: {seen:?}");
    for number in [0, 2, 3, 12, 13] {
        assert!(seen[number] > 50, "{seen:?}");
    }
}

fn check_model_line(model: &Model, line: &str) {
    assert_eq!(
        line,
        format!(
            "model {} {} {} {}",
            model.n,
            count(model.i),
            count(model.p),
            model.pairs().len()
        )
    );
}

/// The listing of a model whose shortest walk has this many states.
fn check_reached_listing(model: &Model, lines: &[&str], states: usize) {
    let fields: Vec<&str> = lines[1].split(' ').collect();
    assert_eq!(fields[0], "reached");
    assert_eq!(fields[1], states.to_string());
    assert_eq!(fields[2], "rules");
    assert_eq!(fields.len(), 4);
    assert_eq!(lines.len(), 2 + states);
    let rows: Vec<Vec<i64>> = lines[2..].iter().map(|line| numbers_in(line)).collect();
    for at in 0..rows.len() {
        check_row(model, &rows, at);
    }
}

fn numbers_in(line: &str) -> Vec<i64> {
    line.split(' ')
        .map(|field| field.parse().unwrap())
        .collect()
}

/// Position, state, angle, mode, turn from the row before.
fn check_row(model: &Model, rows: &[Vec<i64>], at: usize) {
    let row = &rows[at];
    assert_eq!(row.len(), 5);
    let state = row[1] as usize;
    assert_eq!(row[0], at as i64 + 1);
    assert_eq!(row[2], i64::from(model.angles[state]));
    assert_eq!(row[3], i64::from(model.modes[state]));
    if at == 0 {
        assert_eq!(row[4], 0);
    } else {
        let before = &rows[at - 1];
        assert!(model.has_move(before[1] as usize, state));
        let half = if before[2] >= 0 { 180 } else { -180 };
        assert!((-179..=179).contains(&row[4]) || row[4] == half);
        assert_eq!((row[2] - before[2] - row[4]) % 360, 0);
    }
}

/// The listing of a model that is safe.
fn check_safe_listing(model: &Model, lines: &[&str]) {
    let fields: Vec<&str> = lines[1].split(' ').collect();
    assert_eq!(fields[0], "safe");
    assert_eq!(fields[2], "rules");
    assert_eq!(fields[4], "members");
    assert_eq!(fields.len(), 6);
    assert_eq!(lines.len(), 3);
    let members: Vec<usize> = lines[2]
        .split(' ')
        .filter(|field| !field.is_empty())
        .map(|field| field.parse().unwrap())
        .collect();
    assert_eq!(fields[5], members.len().to_string());
    assert!(members.windows(2).all(|pair| pair[0] < pair[1]));
    let set = Set::of(&members);
    assert!(model.reachable().within(set) && set.within(model.p));
}

/// The listing has the lines document 01 says, read back field by field.
#[test]
fn listings_of_random_files() {
    let mut random = Random::new(35);
    for _ in 0..600 {
        let model = any_file_model(&mut random);
        let text = listing(&model.file());
        assert!(text.ends_with('\n') && !text.contains("  ") && !text.contains(" \n"));
        let lines: Vec<&str> = text[..text.len() - 1].split('\n').collect();
        check_model_line(&model, lines[0]);
        match model.shortest_walk() {
            Some(states) => check_reached_listing(&model, &lines, states),
            None => check_safe_listing(&model, &lines),
        }
    }
}
