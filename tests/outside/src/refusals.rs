//! Which refusal a call owes, from the table of refusals: the number and the value of the first cause that holds, in the order of the call.
use crate::plain::{adjacent, looseness};

/// The most slack that is accepted.
pub const MOST_SLACK: usize = 5;

/// One more than the highest number of a refusal.
pub const NUMBERS: usize = 17;

/// The number and the value of a refusal, or none.
pub type Refused = Option<(usize, usize)>;

pub fn when(holds: bool, number: usize, value: usize) -> Refused {
    holds.then_some((number, value))
}

pub fn vertices(n: usize) -> Refused {
    when(n == 0 || n > 64, 1, 0)
}

pub fn slack(k: usize) -> Refused {
    when(k == 0 || k > MOST_SLACK, 2, 0)
}

pub fn floor(k: usize, q: usize) -> Refused {
    when(q < 2 * k - 1 || q > 64, 3, 0)
}

/// 4 and 5: of a table of 1 to 64 rows.
pub fn edges(rows: &[u64]) -> Refused {
    let n = rows.len();
    let bad = (0..n).find(|&a| adjacent(rows, a, a) || (n..64).any(|b| adjacent(rows, a, b)));
    if let Some(a) = bad {
        return Some((4, a));
    }
    let one_way = (0..n).find(|&a| (0..n).any(|b| adjacent(rows, a, b) && !adjacent(rows, b, a)));
    one_way.map(|a| (5, a))
}

fn reaches(s: u64, n: usize) -> bool {
    (n..64).any(|v| s >> v & 1 == 1)
}

/// 1, 4, 5, 7: of looseness.
pub fn loose(rows: &[u64], s: u64) -> Refused {
    vertices(rows.len()).or_else(|| edges(rows)).or_else(|| when(reaches(s, rows.len()), 7, 0))
}

/// 1, 2, 4, 5, 7: of judging maximality.
pub fn maximal(rows: &[u64], k: usize, s: u64) -> Refused {
    vertices(rows.len()).or_else(|| slack(k)).or_else(|| edges(rows)).or_else(|| when(reaches(s, rows.len()), 7, 0))
}

/// 1, 2, 3: of numbers alone.
pub fn numbers(n: usize, k: usize, q: usize) -> Refused {
    vertices(n).or_else(|| slack(k)).or_else(|| floor(k, q))
}

/// 1, 2, 3, 4, 5: of the core.
pub fn core(rows: &[u64], k: usize, q: usize) -> Refused {
    numbers(rows.len(), k, q).or_else(|| edges(rows))
}

/// 7, 4, 5: of a table of 1 to 64 rows with silent vertices.
pub fn silent_edges(rows: &[u64], silent: u64) -> Refused {
    when(reaches(silent, rows.len()), 7, 0).or_else(|| edges(rows))
}

/// 14: of a table of 1 to 64 rows, the lowest vertex that is adjacent to none.
pub fn isolated(rows: &[u64]) -> Refused {
    let n = rows.len();
    (0..n).find(|&a| !(0..n).any(|b| adjacent(rows, a, b))).map(|a| (14, a))
}

/// 7, 4, 5, 14: of a sheet whose lines are right, before the buffer is looked at.
pub fn reading(rows: &[u64], silent: u64) -> Refused {
    silent_edges(rows, silent).or_else(|| isolated(rows))
}

/// 1, 2, 3, 7, 4, 5, 14: of writing, before the buffer is looked at.
pub fn writing(rows: &[u64], k: usize, q: usize, silent: u64) -> Refused {
    numbers(rows.len(), k, q).or_else(|| reading(rows, silent))
}

/// 1, 2, 3, 7, 4, 5: of the list, before its slots are looked at.
pub fn request(rows: &[u64], k: usize, q: usize, silent: u64) -> Refused {
    numbers(rows.len(), k, q).or_else(|| silent_edges(rows, silent))
}

/// 1, 2, 3, 7 of the silent vertices, 4, 5, 7 of the two named, 12, 13: of a change, before its list is made and its slots are looked at.
pub fn change(rows: &[u64], k: usize, q: usize, silent: u64, a: usize, b: usize, to_be: bool) -> Refused {
    let outside = || when(a >= rows.len() || b >= rows.len(), 7, 0);
    request(rows, k, q, silent).or_else(outside).or_else(|| when(a == b, 12, 0)).or_else(|| when(adjacent(rows, a, b) == to_be, 13, 0))
}

/// 1, 4, 5, 7: of the reach.
pub fn reach(rows: &[u64], v: usize) -> Refused {
    vertices(rows.len()).or_else(|| edges(rows)).or_else(|| when(v >= rows.len(), 7, 0))
}

/// 1, 2, 4, 5, 7, 10: of the bounds.
pub fn bound(rows: &[u64], k: usize, s: u64, c: u64, v: usize) -> Refused {
    let n = rows.len();
    let outside = || when(reaches(s, n) || reaches(c, n) || v >= n, 7, 0);
    let misplaced = || when(looseness(rows, s | 1 << v) > k || c >> v & 1 == 0 || s & c != 0, 10, 0);
    vertices(n).or_else(|| slack(k)).or_else(|| edges(rows)).or_else(outside).or_else(misplaced)
}

/// 1, 2, 4, 5, 7, 11: of the largest k-plex.
pub fn largest(rows: &[u64], k: usize, forced: u64) -> Refused {
    maximal(rows, k, forced).or_else(|| when(looseness(rows, forced) > k, 11, 0))
}
