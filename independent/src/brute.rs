//! Breadth-first reachability on a list of pairs.  It uses no set, no f, no
//! g and no rule of the rest of this library, only plain vectors.

use std::collections::VecDeque;

/// What a breadth-first walk over the table finds.
pub struct Brute {
    /// For each state, the fewest moves from a start, if it can be reached.
    pub distance: Vec<Option<usize>>,
    /// For each state, whether some walk from a start visits it.
    pub reachable: Vec<bool>,
    /// The states in a shortest walk from a start to a bad state, if any
    /// (one more than its moves).
    pub shortest_walk: Option<usize>,
}

/// `pairs` are the moves (from, to), `starts` and `safe` have one place for
/// each of the N states.
pub fn brute(n: usize, pairs: &[(usize, usize)], starts: &[bool], safe: &[bool]) -> Brute {
    let mut next: Vec<Vec<usize>> = vec![Vec::new(); n];
    for &(from, to) in pairs {
        next[from].push(to);
    }
    let mut distance: Vec<Option<usize>> = vec![None; n];
    let mut waiting = VecDeque::new();
    for s in 0..n {
        if starts[s] {
            distance[s] = Some(0);
            waiting.push_back(s);
        }
    }
    while let Some(s) = waiting.pop_front() {
        let here = distance[s].unwrap();
        for &t in &next[s] {
            if distance[t].is_none() {
                distance[t] = Some(here + 1);
                waiting.push_back(t);
            }
        }
    }
    let shortest_walk = (0..n)
        .filter(|&s| !safe[s])
        .filter_map(|s| distance[s])
        .min()
        .map(|moves| moves + 1);
    let reachable = distance.iter().map(|d| d.is_some()).collect();
    Brute {
        distance,
        reachable,
        shortest_walk,
    }
}
