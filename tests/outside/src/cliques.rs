//! Bron and Kerbosch with Tomita's pivot: the maximal cliques, which are the list for slack 1.
use crate::plain::full;

/// Calls `out` with every maximal clique of at least q vertices.
pub fn run(rows: &[u64], q: usize, out: &mut dyn FnMut(u64)) {
    extend(rows, q as u32, 0, full(rows.len()), 0, out);
}

fn extend(rows: &[u64], q: u32, taken: u64, mut open: u64, mut shut: u64, out: &mut dyn FnMut(u64)) {
    if open == 0 {
        if shut == 0 && taken.count_ones() >= q {
            out(taken);
        }
        return;
    }
    if taken.count_ones() + open.count_ones() < q {
        return;
    }
    let (mut best, mut todo, mut pivots) = (-1, 0, open | shut);
    while pivots != 0 {
        let row = rows[pivots.trailing_zeros() as usize];
        pivots &= pivots - 1;
        let near = (open & row).count_ones() as i32;
        if near > best {
            (best, todo) = (near, open & !row);
        }
    }
    while todo != 0 {
        let row = rows[todo.trailing_zeros() as usize];
        let v = todo & todo.wrapping_neg();
        todo &= todo - 1;
        extend(rows, q, taken | v, open & row, shut & row, out);
        open &= !v;
        shut |= v;
    }
}
