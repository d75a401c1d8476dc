//! `compare [COUNT [SEED]]`: compares the library, over its C boundary, with the independent program: every answer and
//! every byte of every lent buffer. `compare --case SEED NUMBER` runs one case again.

mod boundary;
mod calls;
mod cases;
mod crash;
mod given;
mod lent;
mod seen;
mod show;

use independent::random::Random;
use seen::Seen;
use std::env;
use std::panic::{catch_unwind, AssertUnwindSafe};
use std::process::ExitCode;
use std::time::{SystemTime, UNIX_EPOCH};

const USAGE: &str = "usage: compare [COUNT [SEED | random]]\n       compare --case SEED NUMBER";
const COUNT: u64 = cases::PAIRS_OF_ANGLES + 115_000;
const SEED: u64 = 271_828;

/// What agreed, or the first difference.
type Agreed<T> = Result<T, String>;

/// A case has random numbers of its own, so that it can be run again alone.
struct Case<'a> {
    random: Random,
    seen: &'a mut Seen,
}

fn main() -> ExitCode {
    crash::watch();
    let words: Vec<String> = env::args().skip(1).collect();
    let words: Vec<&str> = words.iter().map(String::as_str).collect();
    let done = match words[..] {
        [] => compare(COUNT, SEED),
        ["--case", seed, number] => number_pair(seed, number).and_then(|(s, n)| one(s, n)),
        [count] => number_of(count).and_then(|count| compare(count, SEED)),
        [count, "random"] => number_of(count).and_then(|count| compare(count, clock())),
        [count, seed] => number_pair(count, seed).and_then(|(c, s)| compare(c, s)),
        _ => Err(USAGE.into()),
    };
    match done {
        Ok(()) => ExitCode::SUCCESS,
        Err(what) => {
            println!("{what}");
            ExitCode::from(if what == USAGE { 2 } else { 1 })
        }
    }
}

fn number_of(word: &str) -> Agreed<u64> {
    word.parse().map_err(|_| USAGE.into())
}

fn number_pair(first: &str, second: &str) -> Agreed<(u64, u64)> {
    Ok((number_of(first)?, number_of(second)?))
}

fn clock() -> u64 {
    let since = SystemTime::now().duration_since(UNIX_EPOCH);
    since.expect("a clock past 1970").as_nanos() as u64
}

/// Cases, one after the other, each to its end, until there are at least `count` comparisons.
fn compare(count: u64, seed: u64) -> Agreed<()> {
    println!("compare: seed {seed}");
    let mut seen = Seen::nothing();
    let mut number = 0;
    while seen.comparisons < count {
        run_case(&mut seen, seed, number).map_err(|what| {
            let before = seen.comparisons;
            format!("{what}\nafter {before} comparisons of compare {count} {seed}")
        })?;
        number += 1;
    }
    seen.print();
    let missing = seen.missing();
    if !missing.is_empty() {
        return Err(format!("compare: never came: {}", missing.join(", ")));
    }
    println!(
        "compare: {} comparisons agree (seed {seed})",
        seen.comparisons
    );
    Ok(())
}

fn one(seed: u64, number: u64) -> Agreed<()> {
    let mut seen = Seen::nothing();
    run_case(&mut seen, seed, number)?;
    println!(
        "compare: {} comparisons agree (case {number} of seed {seed})",
        seen.comparisons
    );
    Ok(())
}

fn run_case(seen: &mut Seen, seed: u64, number: u64) -> Agreed<()> {
    crash::begins(seed, number);
    let random = Random::new(seed ^ Random::new(number).word());
    let mut case = Case { random, seen };
    // A panic of the comparison itself is a failure of this case too.
    let ran = catch_unwind(AssertUnwindSafe(|| cases::run(&mut case, number)));
    let done = ran.unwrap_or_else(|_| Err("the comparison stopped by itself".into()));
    done.map_err(|what| {
        format!("compare: case {number} differs\n{what}\nagain: compare --case {seed} {number}")
    })
}
