//! Graphs of our own making, from seeds: the same on every machine.

/// Random numbers (splitmix64).
pub struct Rng(pub u64);

impl Rng {
    pub fn word(&mut self) -> u64 {
        self.0 = self.0.wrapping_add(0x9E37_79B9_7F4A_7C15);
        let mut z = self.0;
        z = (z ^ (z >> 30)).wrapping_mul(0xBF58_476D_1CE4_E5B9);
        z = (z ^ (z >> 27)).wrapping_mul(0x94D0_49BB_1331_11EB);
        z ^ (z >> 31)
    }

    /// A number below `n`.
    pub fn below(&mut self, n: usize) -> usize {
        (self.word() % n as u64) as usize
    }

    /// A number from `low` to `high`.
    pub fn between(&mut self, low: usize, high: usize) -> usize {
        low + self.below(high - low + 1)
    }

    /// A fraction of 1.
    pub fn unit(&mut self) -> f64 {
        (self.word() >> 11) as f64 / (1u64 << 53) as f64
    }

    pub fn chance(&mut self, p: f64) -> bool {
        self.unit() < p
    }
}

/// Makes two vertices adjacent.
pub fn connect(rows: &mut [u64], a: usize, b: usize) {
    if a != b {
        rows[a] |= 1 << b;
        rows[b] |= 1 << a;
    }
}

fn by_pairs(n: usize, mut adjacent: impl FnMut(usize, usize) -> bool) -> Vec<u64> {
    let mut rows = vec![0; n];
    for a in 0..n {
        for b in a + 1..n {
            if adjacent(a, b) {
                connect(&mut rows, a, b);
            }
        }
    }
    rows
}

/// Each pair is adjacent with probability `p`.
pub fn random(n: usize, p: f64, seed: u64) -> Vec<u64> {
    let mut rng = Rng(seed.wrapping_mul(7919).wrapping_add(n as u64));
    by_pairs(n, |_, _| rng.chance(p))
}

/// A random graph with `count` dense sets of `size` vertices, whose pairs are adjacent with probability `inside`.
pub fn planted(n: usize, p: f64, count: usize, size: usize, inside: f64, seed: u64) -> Vec<u64> {
    let mut rows = random(n, p, seed);
    let mut rng = Rng(seed ^ 0xAB_CDEF);
    for _ in 0..count {
        let mut order: Vec<usize> = (0..n).collect();
        for i in 0..size {
            let j = i + rng.below(n - i);
            order.swap(i, j);
        }
        for i in 0..size {
            for j in i + 1..size {
                if rng.chance(inside) {
                    connect(&mut rows, order[i], order[j]);
                }
            }
        }
    }
    rows
}

/// Communities of `size` vertices: pairs inside one with probability `inside`, pairs across with `across`.
pub fn communities(n: usize, size: usize, inside: f64, across: f64, seed: u64) -> Vec<u64> {
    let mut rng = Rng(seed.wrapping_mul(104_729));
    by_pairs(n, |a, b| rng.chance(if a / size == b / size { inside } else { across }))
}

/// Cliques of `size` vertices in a ring, each joined to the next by one edge.
pub fn ring_of_cliques(n: usize, size: usize) -> Vec<u64> {
    let mut rows = by_pairs(n, |a, b| a / size == b / size);
    for first in (0..n).step_by(size) {
        connect(&mut rows, (first + size - 1) % n, (first + size) % n);
    }
    rows
}

/// Parts of `size` vertices, adjacent where they are not in one part.
pub fn multipartite(n: usize, size: usize) -> Vec<u64> {
    by_pairs(n, |a, b| a / size != b / size)
}

/// A ring of `n` vertices.
pub fn ring(n: usize) -> Vec<u64> {
    by_pairs(n, |a, b| b == a + 1 || (a == 0 && b == n - 1))
}

/// A path through the vertices of `order`.
pub fn path(order: &[usize]) -> Vec<u64> {
    let mut rows = vec![0; order.len()];
    order.windows(2).for_each(|step| connect(&mut rows, step[0], step[1]));
    rows
}

/// The numbers below `n` from the middle of a path outwards: .., 4, 2, 0, 1, 3, 5, ..
pub fn outward(n: usize) -> Vec<usize> {
    (0..n).rev().filter(|v| v % 2 == 0).chain((0..n).filter(|v| v % 2 == 1)).collect()
}

/// A path through the vertices of `order`, the first three of which are a triangle.
pub fn lollipop(order: &[usize]) -> Vec<u64> {
    let mut rows = path(order);
    connect(&mut rows, order[0], order[2]);
    rows
}

/// One vertex, adjacent to all others.
pub fn star(n: usize) -> Vec<u64> {
    by_pairs(n, |a, _| a == 0)
}

/// All pairs.
pub fn complete(n: usize) -> Vec<u64> {
    by_pairs(n, |_, _| true)
}

fn by_distance(words: &[u32], distance: u32) -> Vec<u64> {
    by_pairs(words.len(), |a, b| (words[a] ^ words[b]).count_ones() >= distance)
}

/// hamming6-d of the DIMACS challenge: words of six bits, adjacent at distance d or more.
pub fn hamming6(d: u32) -> Vec<u64> {
    by_distance(&(0..64).collect::<Vec<u32>>(), d)
}

/// johnson8-2-4 of the DIMACS challenge: pairs out of eight, adjacent where they share none.
pub fn johnson8_2_4() -> Vec<u64> {
    by_distance(&(0..256u32).filter(|w| w.count_ones() == 2).collect::<Vec<u32>>(), 4)
}

/// MANN_a9 of the DIMACS challenge: the clique form of the Steiner triple system of order 9. Not adjacent are the three vertices of one triple, and
/// a triple's vertex and its point.
pub fn mann_a9() -> Vec<u64> {
    let mut triples = vec![];
    for i in 0..3 {
        triples.push([3 * i, 3 * i + 1, 3 * i + 2]);
        for slope in 0..3 {
            triples.push([i, 3 + (i + slope) % 3, 6 + (i + 2 * slope) % 3]);
        }
    }
    let mut apart = vec![0u64; 45];
    for (t, points) in triples.iter().enumerate() {
        for (i, &point) in points.iter().enumerate() {
            connect(&mut apart, 9 + 3 * t + i, point);
            connect(&mut apart, 9 + 3 * t + i, 9 + 3 * t + (i + 1) % 3);
        }
    }
    by_pairs(45, |a, b| apart[a] >> b & 1 == 0)
}
