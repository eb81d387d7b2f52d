//! The largest k-plex that holds forced vertices, and of the k-plexes of that size that hold them the lowest mask: by trying all sets, and by the published
//! algorithm for it (003: Xiao, Lin, Dai, Zeng, A Fast Algorithm to Compute Maximum k-Plexes in Social Network Analysis, Algorithm 1).
//!
//! An instance of 003 is a graph, here the set of its vertices, and the forced vertices F in it. The graph shrinks and F grows by the lemmas of 003, until the
//! whole graph is a k-plex or a branching rule splits the instance. Where 003 asks for a bound that is given and repeats that for other bounds, one search is
//! made here that looks for one vertex more than the best k-plex has. 003's Property 3 has connected graphs alone in mind: a k-plex of fewer than 2k - 1
//! vertices may fall apart. Lemma 8 is therefore used from there on alone, where it says that members are at most two edges apart.
use crate::plain::{self, full};
use crate::words::{has, members, misses, size};
use std::cmp::Reverse;

/// The size and the mask by trying all sets, where the forced set is a k-plex.
pub fn by_all_sets(rows: &[u64], k: usize, forced: u64) -> (usize, u64) {
    assert!(rows.len() <= 16, "trying all sets is for 16 vertices at most");
    let holding = (0..1u64 << rows.len()).filter(|s| s & forced == forced && plain::is_plex(rows, k, *s));
    let best = holding.max_by_key(|s| (s.count_ones(), Reverse(*s))).expect("the forced set is a k-plex");
    (best.count_ones() as usize, best)
}

/// The size and the mask by 003's algorithm, where the forced set is a k-plex. From the highest vertex down each is left out where a k-plex of that size is
/// left without it, and is forced else.
pub fn plain(rows: &[u64], k: usize, forced: u64) -> (usize, u64) {
    let k = k as u32;
    let start = peeled(rows, k, forced);
    let mut search = Search::new(rows, k, start, size(start), u32::MAX);
    search.plex(full(rows.len()), forced);
    let (most, mut best) = (search.size, search.best);
    let (mut graph, mut held) = (full(rows.len()), forced);
    for v in (0..rows.len()).rev().filter(|&v| !has(forced, v)) {
        if size(held) == most {
            break;
        }
        let without = graph & !(1 << v);
        match has(best, v).then(|| one_of_size(rows, k, most, without, held)) {
            Some(None) => held |= 1 << v,
            Some(Some(other)) => (graph, best) = (without, other),
            None => graph = without,
        }
    }
    (most as usize, held)
}

/// A k-plex of so many vertices, which are the most that one has, between the forced set and the graph.
fn one_of_size(rows: &[u64], k: u32, most: u32, graph: u64, forced: u64) -> Option<u64> {
    let mut search = Search::new(rows, k, 0, most - 1, most);
    search.plex(graph, forced);
    (search.size == most).then_some(search.best)
}

/// A k-plex to start from: what is left where, again and again, the vertex that misses most is deleted, and then what can be added to it.
fn peeled(rows: &[u64], k: u32, forced: u64) -> u64 {
    let mut left = full(rows.len());
    let most_missing = |left: u64, among: u64| members(among).max_by_key(|&v| misses(rows, left, v));
    while !is_plex(rows, k, left) {
        // a forced vertex that misses too many needs one of them deleted
        let beside = most_missing(left, forced).filter(|&v| misses(rows, left, v) > k).map_or(0, |v| rows[v]);
        let v = most_missing(left, left & !forced & !beside).expect("the forced set is a k-plex");
        left &= !(1 << v);
    }
    (0..rows.len()).fold(left, |s, v| if is_plex(rows, k, s | 1 << v) { s | 1 << v } else { s })
}

fn is_plex(rows: &[u64], k: u32, s: u64) -> bool {
    members(s).all(|v| misses(rows, s, v) <= k)
}

/// An instance that no lemma reduces, and its vertices that miss more than k: the k-unsatisfied ones. With none of them the whole graph is a k-plex.
struct Instance {
    graph: u64,
    forced: u64,
    unsatisfied: u64,
}

struct Search<'a> {
    rows: &'a [u64],
    k: u32,
    /// More than half of all pairs are adjacent.
    dense: bool,
    best: u64,
    /// The size of the best k-plex: a larger one is looked for.
    size: u32,
    /// The search ends with a k-plex of so many vertices.
    enough: u32,
}

impl Search<'_> {
    fn new(rows: &[u64], k: u32, best: u64, size: u32, enough: u32) -> Search<'_> {
        let ends: usize = rows.iter().map(|row| row.count_ones() as usize).sum();
        Search { rows, k, dense: 2 * ends > rows.len() * rows.len(), best, size, enough }
    }

    /// Algorithm 1: the best k-plex that is larger than the best so far, holds the forced vertices and has none outside the graph.
    fn plex(&mut self, graph: u64, forced: u64) {
        if self.size >= self.enough {
            return;
        }
        let Some(left) = self.reduced(graph, forced) else { return };
        if left.unsatisfied == 0 {
            (self.best, self.size) = (left.graph, size(left.graph));
            return;
        }
        // lines 13 and 14, Branching Rule 1: without the dominated vertex, or with both (Lemmas 5 and 6)
        if let Some((v, u)) = self.dominated(left.graph, left.graph & !left.forced) {
            self.plex(left.graph & !(1 << v), left.forced);
            self.plex(left.graph, left.forced | 1 << v | 1 << u);
            return;
        }
        // lines 15 to 17
        if let Some(v) = self.least_degree(left.graph, left.forced & left.unsatisfied) {
            self.beside_forced(&left, v);
            return;
        }
        // lines 18 to 20, Branching Rule 3: without the vertex, or with it, where Branching Rule 2 comes next
        let v = self.least_degree(left.graph, left.unsatisfied).expect("a vertex that misses too many");
        self.plex(left.graph & !(1 << v), left.forced);
        self.plex(left.graph, left.forced | 1 << v);
    }

    /// Branching Rule 2, for a forced vertex v that may miss `more` further vertices and misses those of `missed`: the first of them that is left out is the
    /// first one, the second, and so on, or the first `more` are taken and the others left out.
    fn beside_forced(&mut self, left: &Instance, v: usize) {
        let more = (self.k - misses(self.rows, left.forced, v)) as usize;
        let mut missed: Vec<usize> = members(left.graph & !left.forced & !self.rows[v]).collect();
        missed.sort_by_key(|&x| misses(self.rows, left.graph, x));
        let mut taken = left.forced;
        for x in &missed[..more] {
            self.plex(left.graph & !(1 << x), taken);
            taken |= 1 << x;
        }
        let others = missed[more..].iter().fold(0, |set, x| set | 1 << x);
        self.plex(left.graph & !others, taken);
    }

    /// Lines 1 to 12: the lemmas, until none applies. None where no k-plex of the instance is larger than the best.
    fn reduced(&self, mut graph: u64, mut forced: u64) -> Option<Instance> {
        loop {
            let before = graph;
            graph = self.dense_enough(self.fitting(graph, forced)?, forced)?;
            graph = self.near(graph, forced)?;
            if size(graph) <= self.size {
                return None;
            }
            if graph != before {
                continue;
            }
            let unsatisfied = self.those(graph, |v| misses(self.rows, graph, v) > self.k);
            // Lemma 4: a vertex that with all that it misses is satisfied can be added to every k-plex
            let free = self.those(graph & !forced & !unsatisfied, |v| graph & !self.rows[v] & unsatisfied == 0);
            if free == 0 || unsatisfied == 0 {
                return Some(Instance { graph, forced, unsatisfied });
            }
            forced |= free;
        }
    }

    /// The members of s for which the test holds.
    fn those(&self, s: u64, test: impl Fn(usize) -> bool) -> u64 {
        members(s).filter(|&v| test(v)).fold(0, |kept, v| kept | 1 << v)
    }

    /// Property 1, Lemmas 2 and 3: the vertices that make a k-plex with the forced ones. None where these are no k-plex.
    fn fitting(&self, graph: u64, forced: u64) -> Option<u64> {
        let mut open = graph & !forced;
        for u in members(forced) {
            match misses(self.rows, forced, u) {
                m if m > self.k => return None,
                m if m == self.k => open &= self.rows[u],
                _ => {}
            }
        }
        Some(forced | self.those(open, |v| misses(self.rows, forced, v) < self.k))
    }

    /// Lemma 7: the vertices with enough neighbours for a k-plex that is larger than the best. None where a forced one has too few.
    fn dense_enough(&self, mut graph: u64, forced: u64) -> Option<u64> {
        for v in members(graph) {
            if size(self.rows[v] & graph) + self.k > self.size {
                continue;
            }
            if has(forced, v) {
                return None;
            }
            graph &= !(1 << v);
        }
        Some(graph)
    }

    /// Property 3 and Lemma 8, where a larger k-plex has at least 2k - 1 vertices: those at most two edges away from each forced one. None where two
    /// forced ones are further apart.
    fn near(&self, mut graph: u64, forced: u64) -> Option<u64> {
        if self.size + 2 < 2 * self.k {
            return Some(graph);
        }
        for u in members(forced) {
            let far = self.those(graph & !self.rows[u] & !(1 << u), |v| self.rows[u] & self.rows[v] & graph == 0);
            if far & forced != 0 {
                return None;
            }
            graph &= !far;
        }
        Some(graph)
    }

    /// Two free vertices of which the second dominates the first: it is adjacent to every neighbour of the first but itself. In a dense graph the
    /// vertices that the second misses tell soonest, and in a sparse one the neighbours of the first.
    fn dominated(&self, graph: u64, free: u64) -> Option<(usize, usize)> {
        let under = |u: usize| self.meet(free & !(1 << u), graph & !self.rows[u] & !(1 << u), |w| !self.rows[w]);
        let over = |v: usize| self.meet(free & !(1 << v), graph & self.rows[v], |w| self.rows[w] | 1 << w);
        if self.dense {
            return members(free).map(|u| (under(u), u)).find(|(under, _)| *under != 0).map(|(under, u)| (under.trailing_zeros() as usize, u));
        }
        members(free).map(|v| (v, over(v))).find(|(_, over)| *over != 0).map(|(v, over)| (v, over.trailing_zeros() as usize))
    }

    /// The members of s that lie in the set of each member of t.
    fn meet(&self, mut s: u64, t: u64, set: impl Fn(usize) -> u64) -> u64 {
        for w in members(t) {
            s &= set(w);
            if s == 0 {
                break;
            }
        }
        s
    }

    fn least_degree(&self, graph: u64, among: u64) -> Option<usize> {
        members(among).min_by_key(|&v| size(self.rows[v] & graph))
    }
}
