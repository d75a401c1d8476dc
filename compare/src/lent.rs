//! Places lent over the boundary. Each lies in the middle of a larger one, between guards that no call may touch.

use crate::given::Both;
use crate::Agreed;
use independent::make::Model;
use independent::random::Random;
use independent::Set;
use std::fmt::LowerHex;

/// Odd, so that a place is aligned no better than its elements must be.
const GUARD: usize = 67;

/// What a lent place is made of.
pub trait Element: Copy + PartialEq + LowerHex {
    /// A guard: never 0, and hardly ever what a call would write there.
    fn guard(at: usize) -> Self;
    fn any(random: &mut Random) -> Self;
}

macro_rules! elements {
    ($($kind:ty)*) => {$(
        impl Element for $kind {
            fn guard(at: usize) -> $kind {
                let mixed = Random::new(at as u64).word();
                mixed as $kind | 1
            }
            fn any(random: &mut Random) -> $kind {
                random.word() as $kind
            }
        }
    )*};
}
elements!(u8 u16 i16 u64 usize);

/// Random elements.
pub fn any<T: Element>(random: &mut Random, length: usize) -> Vec<T> {
    (0..length).map(|_| T::any(random)).collect()
}

pub struct Lent<T> {
    /// Guards, the place, guards.
    cells: Vec<T>,
    length: usize,
}

impl<T: Element> Lent<T> {
    pub fn of(contents: &[T]) -> Lent<T> {
        let length = contents.len();
        let mut cells: Vec<T> = (0..GUARD).map(T::guard).collect();
        cells.extend_from_slice(contents);
        cells.extend((GUARD + length..2 * GUARD + length).map(T::guard));
        Lent { cells, length }
    }

    /// The place. Mutable for a call that only reads, too: what it leaves there is compared as well.
    pub fn place(&mut self) -> *mut T {
        self.cells.as_mut_ptr().wrapping_add(GUARD)
    }

    pub fn length(&self) -> usize {
        self.length
    }

    /// Does it hold what is expected, between untouched guards?
    pub fn holds(&self, name: &str, expected: &[T]) -> Agreed<()> {
        assert_eq!(self.length, expected.len(), "what is expected of {name}");
        let wanted = Lent::of(expected).cells;
        if self.cells == wanted {
            return Ok(());
        }
        let differs = |&at: &usize| self.cells[at] != wanted[at];
        let at = (0..wanted.len()).find(differs).unwrap_or(0);
        let (found, wanted) = (self.cells[at], wanted[at]);
        let (place, length) = (at as isize - GUARD as isize, self.length);
        let guard = if (GUARD..GUARD + length).contains(&at) {
            ""
        } else {
            ", a guard"
        };
        Err(format!(
            "{name}[{place}] of {length}{guard}: library {found:#x}, independent {wanted:#x}"
        ))
    }
}

/// A set lent as four words.
pub fn lent_set(set: Set) -> Lent<u64> {
    Lent::of(&set.0)
}

/// What the calls on one table are lent of it.
pub struct LentTable {
    pub n: u16,
    pub starts: Lent<u64>,
    pub safe: Lent<u64>,
    pub moves: Lent<u64>,
}

impl LentTable {
    pub fn of(model: &Model) -> LentTable {
        LentTable {
            n: model.n,
            starts: lent_set(model.i),
            safe: lent_set(model.p),
            moves: Lent::of(&model.moves),
        }
    }

    pub fn holds(&self, model: &Model) -> Agreed<()> {
        self.starts.holds("starts", &model.i.0)?;
        self.safe.holds("safe", &model.p.0)?;
        self.moves.holds("moves", &model.moves)
    }
}

/// The angles and modes of a table.
pub struct LentStates {
    pub angles: Lent<i16>,
    pub modes: Lent<u8>,
}

impl LentStates {
    pub fn of(model: &Model) -> LentStates {
        LentStates {
            angles: Lent::of(&model.angles),
            modes: Lent::of(&model.modes),
        }
    }

    pub fn holds(&self, model: &Model) -> Agreed<()> {
        self.angles.holds("angles", &model.angles)?;
        self.modes.holds("modes", &model.modes)
    }
}

/// A move table and its second table.
pub struct LentBoth {
    pub n: u16,
    pub moves: Lent<u64>,
    pub second: Lent<u64>,
}

impl LentBoth {
    pub fn of(both: &Both) -> LentBoth {
        LentBoth {
            n: both.n,
            moves: Lent::of(&both.moves),
            second: Lent::of(&both.second),
        }
    }

    pub fn holds(&self, both: &Both) -> Agreed<()> {
        self.moves.holds("moves", &both.moves)?;
        self.second.holds("second", &both.second)
    }
}
