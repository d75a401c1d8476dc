//! What a model is.

use crate::brute::brute;
use crate::file::write;
use crate::random::Random;
use crate::set::{Set, PLACES};
use crate::table::{Table, MOVE_WORDS};

/// All that is given to a call about one table, and what a file holds.
#[derive(Clone, PartialEq, Eq, Debug)]
pub struct Model {
    pub n: u16,
    pub i: Set,
    pub p: Set,
    /// 1,024 words.
    pub moves: Vec<u64>,
    /// 256 angles.
    pub angles: Vec<i16>,
    /// 256 modes.
    pub modes: Vec<u8>,
}

impl Model {
    /// A model of N states without starts, safe states or moves.
    pub fn blank(n: usize) -> Model {
        Model {
            n: n as u16,
            i: Set::EMPTY,
            p: Set::EMPTY,
            moves: vec![0; MOVE_WORDS],
            angles: vec![0; PLACES],
            modes: vec![0; PLACES],
        }
    }

    /// A model with the given moves, starts and safe states.
    pub fn of(n: usize, pairs: &[(usize, usize)], i: &[usize], p: &[usize]) -> Model {
        let mut model = Model::blank(n);
        for &(from, to) in pairs {
            model.add_move(from, to);
        }
        model.i = Set::of(i);
        model.p = Set::of(p);
        model
    }

    pub fn states(&self) -> usize {
        usize::from(self.n)
    }

    pub fn add_move(&mut self, from: usize, to: usize) {
        self.moves[4 * from + to / 64] |= 1 << (to % 64);
    }

    pub fn has_move(&self, from: usize, to: usize) -> bool {
        (self.moves[4 * from + to / 64] >> (to % 64)) & 1 == 1
    }

    /// The moves as pairs, strictly rising.
    pub fn pairs(&self) -> Vec<(usize, usize)> {
        let mut pairs = Vec::new();
        for from in 0..PLACES {
            if self.moves[4 * from..4 * from + 4] == [0; 4] {
                continue;
            }
            for to in 0..PLACES {
                if self.has_move(from, to) {
                    pairs.push((from, to));
                }
            }
        }
        pairs
    }

    /// The second table: row t holds the states with a move to t.
    pub fn second(&self) -> Vec<u64> {
        let mut turned = Model::blank(self.states());
        for (from, to) in self.pairs() {
            turned.add_move(to, from);
        }
        turned.moves
    }

    /// Drop random moves until no more than `most` are left.
    pub fn thin_to(&mut self, random: &mut Random, most: usize) {
        let mut pairs = self.pairs();
        if pairs.len() <= most {
            return;
        }
        while pairs.len() > most {
            let at = random.below(pairs.len());
            pairs.swap_remove(at);
        }
        self.moves = vec![0; MOVE_WORDS];
        for (from, to) in pairs {
            self.add_move(from, to);
        }
    }

    /// The table of a model that is sound.
    pub fn table(&self) -> Table {
        Table::take(&self.moves, self.n, self.i, self.p).expect("a sound model")
    }

    /// The states that some walk from a start visits, by brute force.
    pub fn reachable(&self) -> Set {
        let n = self.states();
        let starts: Vec<bool> = (0..n).map(|s| self.i.member(s)).collect();
        let found = brute(n, &self.pairs(), &starts, &vec![true; n]);
        let mut set = Set::EMPTY;
        for s in 0..n {
            if found.reachable[s] {
                set.insert(s);
            }
        }
        set
    }

    /// The states in a shortest walk to a bad state, by brute force.
    pub fn shortest_walk(&self) -> Option<usize> {
        let n = self.states();
        let starts: Vec<bool> = (0..n).map(|s| self.i.member(s)).collect();
        let safe: Vec<bool> = (0..n).map(|s| self.p.member(s)).collect();
        brute(n, &self.pairs(), &starts, &safe).shortest_walk
    }

    /// The file of a model that can be written.
    pub fn file(&self) -> Vec<u8> {
        let mut out = vec![0; 18_184];
        let length = write(
            self.n,
            self.i,
            self.p,
            &self.moves,
            &self.angles,
            &self.modes,
            &mut out,
        )
        .expect("a model that can be written");
        out.truncate(length);
        out
    }
}
