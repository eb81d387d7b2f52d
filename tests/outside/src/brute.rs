//! The list by trying all sets. Maximality is judged by its definition: no other k-plex contains the set, whatever its size.
use crate::plain::{is_plex, recorded};

/// Every maximal k-plex of which at least q members are not silent, rising.
pub fn list(rows: &[u64], k: usize, q: usize, silent: u64) -> Vec<u64> {
    let n = rows.len();
    assert!(n <= 16, "trying all sets is for 16 vertices at most");
    let all = 1usize << n;
    let plex: Vec<bool> = (0..all).map(|s| is_plex(rows, k, s as u64)).collect();
    // within[s]: s, or a set that contains it, is a k-plex
    let mut within = plex.clone();
    let mut maximal = plex;
    for s in (0..all).rev() {
        let larger = (0..n).any(|v| s >> v & 1 == 0 && within[s | 1 << v]);
        within[s] |= larger;
        maximal[s] &= !larger;
    }
    (0..all as u64).filter(|&s| maximal[s as usize] && recorded(s, silent) >= q).collect()
}
