//! A crash inside the library is a failure of its case too, and is told as one.

use std::process::exit;
use std::sync::atomic::{AtomicU64, Ordering::Relaxed};

static SEED: AtomicU64 = AtomicU64::new(0);
static NUMBER: AtomicU64 = AtomicU64::new(0);

/// The signals of a crash: an unknown instruction, abort, and accesses or sums that cannot be.
const CRASHES: [i32; 5] = [4, 6, 7, 8, 11];

extern "C" {
    fn signal(number: i32, handler: extern "C" fn(i32)) -> usize;
}

pub fn watch() {
    for number in CRASHES {
        unsafe { signal(number, tell) };
    }
}

/// The case that now begins.
pub fn begins(seed: u64, number: u64) {
    SEED.store(seed, Relaxed);
    NUMBER.store(number, Relaxed);
}

extern "C" fn tell(signal: i32) {
    let (seed, number) = (SEED.load(Relaxed), NUMBER.load(Relaxed));
    println!("compare: case {number} ended by signal {signal}");
    println!("again: compare --case {seed} {number}");
    exit(1);
}
