//! A run in the notation of document 001, (x ‖ y)_{n,k}, and the rules of
//! the search.

use crate::set::{smallest, Set};
use crate::table::Table;
use std::collections::VecDeque;

/// The four rules.
#[derive(Clone, Copy, PartialEq, Eq, Debug, Hash)]
pub enum Rule {
    Unfold,
    Candidate,
    Decide,
    Conflict,
}

/// What ends a run.
#[derive(Clone, Copy, PartialEq, Eq, Debug)]
pub enum Conclusion {
    /// Safe, with the smallest j that shows it.
    Safe(usize),
    Reached,
}

/// "A run holds sets x_0 .. x_(n-1) and y_k .. y_(n-1); y is empty when k = n."
#[derive(Clone, PartialEq, Eq, Debug)]
pub struct Run {
    /// x_0 .. x_(n-1); n is its length.
    pub x: Vec<Set>,
    /// y_k .. y_(n-1), y_k first; n-k is its length.
    pub y: VecDeque<Set>,
}

impl Run {
    /// "Fresh: n = k = 2, x_0 empty, x_1 full, no y."
    pub fn fresh(n_states: usize) -> Run {
        Run {
            x: vec![Set::EMPTY, Set::full_of(n_states)],
            y: VecDeque::new(),
        }
    }

    pub fn n(&self) -> usize {
        self.x.len()
    }

    pub fn k(&self) -> usize {
        self.x.len() - self.y.len()
    }

    /// y_j, for j from k to n-1.
    pub fn y(&self, j: usize) -> Set {
        self.y[j - self.k()]
    }

    /// Rule 1: "if some j from 0 to n-2 has x_(j+1) within x_j, the run is
    /// safe and the x_j of the smallest such j is the reason. If k = 1 and I
    /// is not within y_1, it is reached."
    pub fn conclusion(&self, table: &Table) -> Option<Conclusion> {
        for j in 0..=self.n() - 2 {
            if self.x[j + 1].within(self.x[j]) {
                return Some(Conclusion::Safe(j));
            }
        }
        if self.k() == 1 && !table.i.within(self.y(1)) {
            return Some(Conclusion::Reached);
        }
        None
    }

    /// The rule that a run without a conclusion fires next.
    pub fn rule_due(&self, table: &Table) -> Rule {
        let (n, k) = (self.n(), self.k());
        if self.y.is_empty() {
            if self.x[n - 1].within(table.p) {
                Rule::Unfold
            } else {
                Rule::Candidate
            }
        } else if !table.f(self.x[k - 1]).within(self.y(k)) {
            Rule::Decide
        } else {
            Rule::Conflict
        }
    }

    /// "The house choice is P, g(y_k) and y_k, in that order of rules."
    /// Unfold chooses nothing.
    pub fn house_choice(&self, table: &Table, rule: Rule) -> Option<Set> {
        match rule {
            Rule::Unfold => None,
            Rule::Candidate => Some(table.p),
            Rule::Decide => Some(table.g(self.y(self.k()))),
            Rule::Conflict => Some(self.y(self.k())),
        }
    }

    /// May the rule due choose z?  No rule may choose a set with members
    /// from N up.
    pub fn allowed(&self, table: &Table, rule: Rule, z: Set) -> bool {
        let (n, k) = (self.n(), self.k());
        if table.moves.holds_number_from_n_up(z) {
            return false;
        }
        match rule {
            // Nothing is chosen, so nothing is disallowed.
            Rule::Unfold => true,
            // "Choose z with P within z and x_(n-1) not within z."
            Rule::Candidate => table.p.within(z) && !self.x[n - 1].within(z),
            // "Choose z with g(y_k) within z and x_(k-1) not within z."
            Rule::Decide => table.g(self.y(k)).within(z) && !self.x[k - 1].within(z),
            // "Choose z within y_k such that I and f(x_(k-1) ∩ z) are both
            // within z."
            Rule::Conflict => {
                z.within(self.y(k)) && table.i.within(z) && table.f(self.x[k - 1].meet(z)).within(z)
            }
        }
    }

    /// "Append a full x; n and k become n+1."
    pub fn unfold(&mut self, table: &Table) {
        self.x.push(table.full());
    }

    /// "y_(n-1) = z, k = n-1."
    pub fn candidate(&mut self, z: Set) {
        self.y.push_front(z);
    }

    /// "y_(k-1) = z, k drops by 1."
    pub fn decide(&mut self, z: Set) {
        self.y.push_front(z);
    }

    /// "Every x_j with j up to k becomes x_j ∩ z; y_k is dropped, k grows by 1."
    pub fn conflict(&mut self, z: Set) {
        let k = self.k();
        for j in 0..=k {
            self.x[j] = self.x[j].meet(z);
        }
        self.y.pop_front();
    }

    /// Fire the rule with the chosen set; Unfold ignores it.
    pub fn fire(&mut self, table: &Table, rule: Rule, z: Set) {
        match rule {
            Rule::Unfold => self.unfold(table),
            Rule::Candidate => self.candidate(z),
            Rule::Decide => self.decide(z),
            Rule::Conflict => self.conflict(z),
        }
    }

    /// "The walk of a reached run has n-1 states: the smallest start outside
    /// y_1, then each time the smallest next state by a move that lies
    /// outside the next y."
    pub fn walk(&self, table: &Table) -> Vec<u16> {
        let start = smallest(table.i.minus(self.y(1))).expect("a start outside y_1");
        let mut walk = vec![start];
        let mut here = usize::from(start);
        for j in 2..=self.n() - 1 {
            let next = smallest(table.moves.rows[here].minus(self.y(j)))
                .expect("a move to outside the next y");
            walk.push(next);
            here = usize::from(next);
        }
        walk
    }
}
