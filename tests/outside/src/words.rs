//! Sets of up to 64 vertices in a word, for the fast implementations.

pub fn size(s: u64) -> u32 {
    s.count_ones()
}

pub fn has(s: u64, v: usize) -> bool {
    s >> v & 1 == 1
}

pub fn members(mut s: u64) -> impl Iterator<Item = usize> {
    std::iter::from_fn(move || {
        (s != 0).then(|| {
            let v = s.trailing_zeros() as usize;
            s &= s - 1;
            v
        })
    })
}

/// How many members of s the vertex v is not adjacent to.
pub fn misses(rows: &[u64], s: u64, v: usize) -> u32 {
    size(s & !rows[v])
}
