//! The published algorithm (Dai, Li, Qin, Liao, Wang: Scaling Up Maximal k-plex Enumeration, Algorithms 1 and 2): vertices in degeneracy order as
//! seeds, an excluded set carried along, pairs by common neighbours at the seed, and the second bound before each branch.
use crate::plain::full;
use crate::words::{has, members, misses, size};

/// Vertices in degeneracy order: again and again the one of least degree in what is left.
fn degeneracy(rows: &[u64]) -> Vec<usize> {
    let mut left = full(rows.len());
    let mut order = vec![];
    while left != 0 {
        let v = members(left).min_by_key(|&v| size(rows[v] & left)).unwrap();
        order.push(v);
        left &= !(1 << v);
    }
    order
}

fn core(rows: &[u64], k: u32, q: u32) -> u64 {
    let mut left = full(rows.len());
    while let Some(v) = members(left).find(|&v| size(rows[v] & left) + k < q) {
        left &= !(1 << v);
    }
    left
}

/// The second bound for candidates c that each make a k-plex with s.
fn second_bound(rows: &[u64], k: u32, s: u64, c: u64, v: usize) -> u32 {
    let mut support = [0u32; 64];
    let mut total = 0;
    for w in members(s) {
        support[w] = k - misses(rows, s, w);
        total += support[w];
    }
    let mut bound = size(s) + k - misses(rows, s, v);
    for cost in 0..k {
        for u in members(c & rows[v]).filter(|&u| misses(rows, s, u) == cost) {
            if cost == 0 {
                bound += 1;
                continue;
            }
            if cost > total {
                continue;
            }
            let w = members(s & !rows[u]).min_by_key(|&w| support[w]).unwrap();
            if support[w] > 0 {
                bound += 1;
                total -= cost;
                support[w] -= 1;
            }
        }
    }
    bound
}

struct Search<'a> {
    rows: Vec<u64>,
    k: u32,
    q: u32,
    all: u64,
    back: Vec<usize>,
    out: &'a mut dyn FnMut(u64),
    nodes: u64,
}

impl Search<'_> {
    /// The vertices of c that make a k-plex with s.
    fn joinable(&self, s: u64, c: u64) -> u64 {
        let open = members(s).filter(|&u| misses(&self.rows, s, u) == self.k).fold(!0, |m, u| m & self.rows[u]);
        members(c & open).filter(|&w| misses(&self.rows, s, w) < self.k).fold(0, |m, w| m | 1 << w)
    }

    /// The vertices of z with enough common neighbours with v in a.
    fn paired(&self, z: u64, a: u64, v: usize) -> u64 {
        let needed = |u: usize| (self.q + if has(self.rows[v], u) { 0 } else { 2 }).saturating_sub(2 * self.k);
        members(z).filter(|&u| size(self.rows[u] & self.rows[v] & a) >= needed(u)).fold(0, |m, u| m | 1 << u)
    }

    fn emit(&mut self, t: u64) {
        let mask = members(t).fold(0, |m, v| m | 1 << self.back[v]);
        (self.out)(mask)
    }

    /// The vertex that misses most of a, then most of s, then the lowest.
    fn worst(&self, s: u64, a: u64, among: u64) -> usize {
        let (mut most, mut best) = (0, among.trailing_zeros() as usize);
        for y in members(among) {
            let key = misses(&self.rows, a, y) * 64 + misses(&self.rows, s, y);
            if key > most {
                (most, best) = (key, y);
            }
        }
        best
    }

    fn branch(&mut self, s: u64, c: u64, x: u64) {
        self.nodes += 1;
        if c == 0 {
            if size(s) >= self.q && x == 0 {
                self.emit(s);
            }
            return;
        }
        let a = s | c;
        if size(a) < self.q {
            return;
        }
        let mut v = self.worst(s, a, a);
        if misses(&self.rows, a, v) <= self.k {
            if self.joinable(a, self.all & !a) == 0 {
                self.emit(a);
            }
            return;
        }
        if has(s, v) {
            v = self.worst(s, a, c & !self.rows[v]);
        }
        let (joined, rest) = (s | 1 << v, c & !(1 << v));
        if second_bound(&self.rows, self.k, s, c, v) >= self.q {
            let (c2, x2) = (self.joinable(joined, rest), self.joinable(joined, x));
            self.branch(joined, c2, x2);
        }
        self.branch(s, rest, x | 1 << v);
    }
}

/// Calls `out` with every maximal k-plex of at least q vertices, in no order, and gives the number of branches.
pub fn run(rows: &[u64], k: usize, q: usize, out: &mut dyn FnMut(u64)) -> u64 {
    let (k, q) = (k as u32, q as u32);
    let back = degeneracy(rows);
    let mut at = vec![0; rows.len()];
    for (i, &v) in back.iter().enumerate() {
        at[v] = i;
    }
    let turned: Vec<u64> = back.iter().map(|&v| members(rows[v]).fold(0, |m, u| m | 1 << at[u])).collect();
    let core = core(&turned, k, q);
    let reach: Vec<u64> = (0..turned.len()).map(|v| members(turned[v]).fold(1 << v | turned[v], |m, u| m | turned[u])).collect();
    let all = full(rows.len());
    let mut search = Search { rows: turned, k, q, all, back, out, nodes: 0 };
    for v in members(core) {
        let below = (1u64 << v) - 1;
        let mut c = core & !below & !(1 << v) & reach[v];
        loop {
            let fewer = search.paired(c, c | 1 << v, v);
            if fewer == c {
                break;
            }
            c = fewer;
        }
        let x = search.paired(core & below & reach[v], (core & below & reach[v]) | c | 1 << v, v);
        let (c, x) = (search.joinable(1 << v, c), search.joinable(1 << v, x));
        search.branch(1 << v, c, x);
    }
    search.nodes
}

/// The list, rising.
pub fn list(rows: &[u64], k: usize, q: usize) -> Vec<u64> {
    let mut found = vec![];
    run(rows, k, q, &mut |t| found.push(t));
    found.sort_unstable();
    found
}
