//! The calls of include/lampferret.h, and each of them on lent places.

use crate::lent::{Lent, LentBoth, LentStates, LentTable};

extern "C" {
    fn lampferret_full(n: u16, set: *mut u64) -> u8;
    fn lampferret_count(set: *const u64) -> u16;
    fn lampferret_smallest(set: *const u64) -> u16;
    fn lampferret_turn(a: i16, b: i16, turn: *mut i16) -> u8;
    fn lampferret_f(
        moves: *const u64,
        moves_length: usize,
        n: u16,
        x: *const u64,
        result: *mut u64,
    ) -> u8;
    fn lampferret_g(
        moves: *const u64,
        moves_length: usize,
        n: u16,
        x: *const u64,
        result: *mut u64,
    ) -> u8;
    fn lampferret_fresh(n: u16, run: *mut u64, run_length: usize) -> u8;
    fn lampferret_single(
        moves: *const u64,
        moves_length: usize,
        n: u16,
        starts: *const u64,
        safe: *const u64,
        run: *mut u64,
        run_length: usize,
        proposal: *const u64,
        rule: *mut u8,
    ) -> u8;
    fn lampferret_run(
        moves: *const u64,
        moves_length: usize,
        n: u16,
        starts: *const u64,
        safe: *const u64,
        run: *mut u64,
        run_length: usize,
        hints: *const u64,
        hints_length: usize,
        budget: u64,
        set: *mut u64,
        set_length: usize,
        walk: *mut u16,
        walk_length: usize,
        answer: *mut u64,
    ) -> u8;
    fn lampferret_read(
        file: *const u8,
        file_length: usize,
        moves: *mut u64,
        moves_length: usize,
        angles: *mut i16,
        angles_length: usize,
        modes: *mut u8,
        modes_length: usize,
        starts: *mut u64,
        safe: *mut u64,
        counts: *mut u16,
        offset: *mut usize,
    ) -> u8;
    fn lampferret_write(
        n: u16,
        starts: *const u64,
        safe: *const u64,
        moves: *const u64,
        moves_length: usize,
        angles: *const i16,
        angles_length: usize,
        modes: *const u8,
        modes_length: usize,
        out: *mut u8,
        out_length: usize,
        length: *mut usize,
    ) -> u8;
    fn lampferret_check(
        file: *const u8,
        file_length: usize,
        out: *mut u8,
        out_length: usize,
        length: *mut usize,
    ) -> u8;
    fn lampferret_second(
        moves: *const u64,
        moves_length: usize,
        n: u16,
        second: *mut u64,
        second_length: usize,
    ) -> u8;
    fn lampferret_into(
        moves: *const u64,
        moves_length: usize,
        second: *const u64,
        second_length: usize,
        n: u16,
        state: u16,
        result: *mut u64,
    ) -> u8;
    fn lampferret_add(
        moves: *mut u64,
        moves_length: usize,
        second: *mut u64,
        second_length: usize,
        n: u16,
        from: u16,
        to: u16,
    ) -> u8;
    fn lampferret_remove(
        moves: *mut u64,
        moves_length: usize,
        second: *mut u64,
        second_length: usize,
        n: u16,
        from: u16,
        to: u16,
    ) -> u8;
    fn lampferret_g_by_second(
        moves: *const u64,
        moves_length: usize,
        second: *const u64,
        second_length: usize,
        n: u16,
        x: *const u64,
        result: *mut u64,
    ) -> u8;
}

// Every place below is a `Lent` as long as the length given with it, and no two overlap; a set is one of 4 words.

pub fn full(n: u16, set: &mut Lent<u64>) -> u8 {
    unsafe { lampferret_full(n, set.place()) }
}

pub fn count(set: &mut Lent<u64>) -> u16 {
    unsafe { lampferret_count(set.place()) }
}

pub fn smallest(set: &mut Lent<u64>) -> u16 {
    unsafe { lampferret_smallest(set.place()) }
}

pub fn turn(a: i16, b: i16, turn: &mut Lent<i16>) -> u8 {
    unsafe { lampferret_turn(a, b, turn.place()) }
}

pub fn f(moves: &mut Lent<u64>, n: u16, x: &mut Lent<u64>, result: &mut Lent<u64>) -> u8 {
    unsafe { lampferret_f(moves.place(), moves.length(), n, x.place(), result.place()) }
}

pub fn g(moves: &mut Lent<u64>, n: u16, x: &mut Lent<u64>, result: &mut Lent<u64>) -> u8 {
    unsafe { lampferret_g(moves.place(), moves.length(), n, x.place(), result.place()) }
}

pub fn fresh(n: u16, run: &mut Lent<u64>) -> u8 {
    unsafe { lampferret_fresh(n, run.place(), run.length()) }
}

pub fn single(
    table: &mut LentTable,
    run: &mut Lent<u64>,
    proposal: &mut Lent<u64>,
    rule: &mut Lent<u8>,
) -> u8 {
    unsafe {
        lampferret_single(
            table.moves.place(),
            table.moves.length(),
            table.n,
            table.starts.place(),
            table.safe.place(),
            run.place(),
            run.length(),
            proposal.place(),
            rule.place(),
        )
    }
}

/// What a run is lent besides its table.
pub struct LentRun {
    pub run: Lent<u64>,
    pub hints: Lent<u64>,
    pub set: Lent<u64>,
    pub walk: Lent<u16>,
    pub answer: Lent<u64>,
}

pub fn run(table: &mut LentTable, lent: &mut LentRun, budget: u64) -> u8 {
    unsafe {
        lampferret_run(
            table.moves.place(),
            table.moves.length(),
            table.n,
            table.starts.place(),
            table.safe.place(),
            lent.run.place(),
            lent.run.length(),
            lent.hints.place(),
            lent.hints.length(),
            budget,
            lent.set.place(),
            lent.set.length(),
            lent.walk.place(),
            lent.walk.length(),
            lent.answer.place(),
        )
    }
}

pub fn read(
    file: &mut Lent<u8>,
    table: &mut LentTable,
    states: &mut LentStates,
    counts: &mut Lent<u16>,
    offset: &mut Lent<usize>,
) -> u8 {
    unsafe {
        lampferret_read(
            file.place(),
            file.length(),
            table.moves.place(),
            table.moves.length(),
            states.angles.place(),
            states.angles.length(),
            states.modes.place(),
            states.modes.length(),
            table.starts.place(),
            table.safe.place(),
            counts.place(),
            offset.place(),
        )
    }
}

/// What a call that writes bytes is lent for them.
pub struct Output {
    pub out: Lent<u8>,
    pub length: Lent<usize>,
}

pub fn write(table: &mut LentTable, states: &mut LentStates, to: &mut Output) -> u8 {
    unsafe {
        lampferret_write(
            table.n,
            table.starts.place(),
            table.safe.place(),
            table.moves.place(),
            table.moves.length(),
            states.angles.place(),
            states.angles.length(),
            states.modes.place(),
            states.modes.length(),
            to.out.place(),
            to.out.length(),
            to.length.place(),
        )
    }
}

pub fn check(file: &mut Lent<u8>, to: &mut Output) -> u8 {
    unsafe {
        lampferret_check(
            file.place(),
            file.length(),
            to.out.place(),
            to.out.length(),
            to.length.place(),
        )
    }
}

pub fn second(both: &mut LentBoth) -> u8 {
    unsafe {
        lampferret_second(
            both.moves.place(),
            both.moves.length(),
            both.n,
            both.second.place(),
            both.second.length(),
        )
    }
}

pub fn into(both: &mut LentBoth, state: u16, result: &mut Lent<u64>) -> u8 {
    unsafe {
        lampferret_into(
            both.moves.place(),
            both.moves.length(),
            both.second.place(),
            both.second.length(),
            both.n,
            state,
            result.place(),
        )
    }
}

pub fn add(both: &mut LentBoth, from: u16, to: u16) -> u8 {
    unsafe {
        lampferret_add(
            both.moves.place(),
            both.moves.length(),
            both.second.place(),
            both.second.length(),
            both.n,
            from,
            to,
        )
    }
}

pub fn remove(both: &mut LentBoth, from: u16, to: u16) -> u8 {
    unsafe {
        lampferret_remove(
            both.moves.place(),
            both.moves.length(),
            both.second.place(),
            both.second.length(),
            both.n,
            from,
            to,
        )
    }
}

pub fn g_by_second(both: &mut LentBoth, x: &mut Lent<u64>, result: &mut Lent<u64>) -> u8 {
    unsafe {
        lampferret_g_by_second(
            both.moves.place(),
            both.moves.length(),
            both.second.place(),
            both.second.length(),
            both.n,
            x.place(),
            result.place(),
        )
    }
}
