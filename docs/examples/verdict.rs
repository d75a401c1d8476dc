//! Prints the verdict on the table whose file is on standard input.
use std::io::Read;

// As include/lampferret.h has them: a buffer is a place and a length, a set or an answer a place alone.
extern "C" {
    fn lampferret_read(
        file: *const u8, file_length: usize, moves: *mut u64, moves_length: usize, angles: *mut i16, angles_length: usize,
        modes: *mut u8, modes_length: usize, starts: *mut u64, safe: *mut u64, counts: *mut u16, offset: *mut usize,
    ) -> u8;
    fn lampferret_fresh(size: u16, run: *mut u64, run_length: usize) -> u8;
    fn lampferret_run(
        moves: *const u64, moves_length: usize, size: u16, starts: *const u64, safe: *const u64, run: *mut u64,
        run_length: usize, hints: *const u64, hints_length: usize, budget: u64, set: *mut u64, set_length: usize,
        walk: *mut u16, walk_length: usize, answer: *mut u64,
    ) -> u8;
    fn lampferret_count(set: *const u64) -> u16;
}

/// A table as `lampferret_read` fills it.
struct Table {
    size: u16,
    starts: [u64; 4],
    safe: [u64; 4],
    moves: [u64; 1024],
}

/// The table of a file, or a refusal's number and offset.
fn read(file: &[u8]) -> Result<Table, (u8, usize)> {
    let mut t = Table { size: 0, starts: [0; 4], safe: [0; 4], moves: [0; 1024] };
    let (mut angles, mut modes, mut counts, mut offset) = ([0; 256], [0; 256], [0; 2], 0);
    // Each place is as long as its length says, and no two overlap.
    let refused = unsafe {
        lampferret_read(
            file.as_ptr(), file.len(), t.moves.as_mut_ptr(), 1024, angles.as_mut_ptr(), 256, modes.as_mut_ptr(), 256,
            t.starts.as_mut_ptr(), t.safe.as_mut_ptr(), counts.as_mut_ptr(), &mut offset,
        )
    };
    t.size = counts[0];
    if refused == 0 { Ok(t) } else { Err((refused, offset)) }
}

/// The verdict on a table: a run without hints, on a budget that is always enough; or a refusal's number.
fn verdict(t: &Table) -> Result<String, u8> {
    let (mut run, mut set, mut walk, mut answer) = ([0; 2066], [0; 4], [0; 256], [0; 5]);
    let size = u64::from(t.size);
    let mut refused = unsafe { lampferret_fresh(t.size, run.as_mut_ptr(), 2066) };
    if refused == 0 {
        refused = unsafe {
            lampferret_run(
                t.moves.as_ptr(), 1024, t.size, t.starts.as_ptr(), t.safe.as_ptr(), run.as_mut_ptr(), 2066, [].as_ptr(), 0,
                2 * size * size + 2 * size, set.as_mut_ptr(), 4, walk.as_mut_ptr(), 256, answer.as_mut_ptr(),
            )
        };
    }
    match (refused, answer[0]) {
        (0, 0) => Ok("unfinished: the budget was too small".into()),
        (0, 1) => Ok(format!("safe: no walk leaves a set of {} states", unsafe { lampferret_count(set.as_ptr()) })),
        (0, _) => Ok(format!("reached: state {}, by a walk of {} states", walk[answer[1] as usize - 1], answer[1])),
        _ => Err(refused),
    }
}

fn main() {
    let mut file = Vec::new();
    std::io::stdin().read_to_end(&mut file).expect("standard input can be read");
    match read(&file).map(|table| verdict(&table)) {
        Ok(Ok(text)) => println!("{text}"),
        Ok(Err(number)) => println!("refused {number}"),
        Err((number, offset)) => println!("refused {number} at {offset}"),
    }
}
