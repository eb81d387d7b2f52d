//! The core alone: the call, with its checks of the table, against a plain peeling by a queue, with the same checks and without. A row of random graphs
//! has several of one kind, taken one after the other, so that no call sees the same graph twice running.
use crate::turns;
use outside::instances;
use outside::refusals::MOST_SLACK;

/// So many random graphs to a row.
const SEEDS: u64 = 32;

struct Row {
    name: String,
    graphs: Vec<Vec<u64>>,
    floor: usize,
}

/// Every row has slack 1, so that a member of the core has floor - 1 neighbours or more: the core depends on that number alone.
const SLACK: usize = 1;

/// Peeling by a queue: a vertex whose degree falls below `least` is put on it once, and each that comes off lowers the degrees of its neighbours.
#[inline(never)]
fn queue(rows: &[u64], least: u32) -> u64 {
    let mut degrees = [0; 64];
    let (mut waiting, mut taken, mut put) = ([0u8; 64], 0, 0);
    let mut left = u64::MAX >> (64 - rows.len());
    for (v, row) in rows.iter().enumerate() {
        degrees[v] = row.count_ones();
        if degrees[v] < least {
            waiting[put] = v as u8;
            put += 1;
            left &= !(1 << v);
        }
    }
    while taken < put {
        let mut beside = rows[waiting[taken] as usize] & left;
        taken += 1;
        while beside != 0 {
            let w = beside.trailing_zeros() as usize;
            beside &= beside - 1;
            degrees[w] -= 1;
            if degrees[w] < least {
                waiting[put] = w as u8;
                put += 1;
                left &= !(1 << w);
            }
        }
    }
    left
}

/// Refusals 1, 2, 3, 4 and 5: is there none?
fn accepted(rows: &[u64], slack: usize, floor: usize) -> bool {
    (1..=MOST_SLACK).contains(&slack) && (2 * slack - 1..=64).contains(&floor) && is_graph(rows)
}

/// Refusals 1, 4 and 5: is there none?
#[inline(never)]
pub fn is_graph(rows: &[u64]) -> bool {
    let n = rows.len();
    if !(1..=64).contains(&n) {
        return false;
    }
    if rows.iter().enumerate().any(|(a, row)| row >> a & 1 == 1 || row & !(u64::MAX >> (64 - n)) != 0) {
        return false;
    }
    for (a, &row) in rows.iter().enumerate() {
        let mut left = row;
        while left != 0 {
            if rows[left.trailing_zeros() as usize] >> a & 1 == 0 {
                return false;
            }
            left &= left - 1;
        }
    }
    true
}

/// The three that are timed: the call, the queue with the checks, and the queue alone.
fn run(which: usize, row: &Row) -> usize {
    let core = |rows: &Vec<u64>| {
        let (rows, floor) = (std::hint::black_box(rows.as_slice()), std::hint::black_box(row.floor));
        let peel = || queue(rows, (floor - SLACK) as u32);
        match which {
            0 => kadvisk::core(rows, SLACK, floor).expect("a valid graph").mask,
            1 => accepted(rows, SLACK, floor).then(peel).expect("a valid graph"),
            _ => peel(),
        }
    };
    row.graphs.iter().map(|rows| core(rows).count_ones() as usize).sum()
}

/// Random graphs of 64 vertices, with as many neighbours asked for as few, some, most or all vertices lack.
fn random(p: f64) -> impl Iterator<Item = Row> {
    let usual = 63.0 * p;
    let mut floors: Vec<usize> = [0.5, 0.8, 1.0, 1.25].map(|part| ((usual * part).round() as usize + SLACK).clamp(2, 64)).to_vec();
    floors.dedup();
    let graphs = move || (1..=SEEDS).map(|seed| instances::random(64, p, seed)).collect();
    floors.into_iter().map(move |floor| Row { name: format!("random {p}"), graphs: graphs(), floor })
}

fn rows() -> Vec<Row> {
    let rising: Vec<usize> = (0..64).collect();
    let falling: Vec<usize> = (0..64).rev().collect();
    let paths = [
        ("path, numbered along", instances::path(&rising)),
        ("path, numbered outwards", instances::path(&instances::outward(64))),
        ("triangle and path that rises", instances::lollipop(&rising)),
        ("triangle and path that falls", instances::lollipop(&falling)),
    ];
    let paths = paths.into_iter().map(|(name, rows)| Row { name: name.into(), graphs: vec![rows], floor: 3 });
    [0.03, 0.06, 0.12, 0.3, 0.5, 0.8, 0.95].into_iter().flat_map(random).chain(paths).collect()
}

/// Prints a row, and gives the two ratios.
fn line(row: &Row) -> [f64; 2] {
    let many = row.graphs.len() as f64;
    let passes: usize = row.graphs.iter().map(|rows| kadvisk::core(rows, SLACK, row.floor).expect("a valid graph").passes).sum();
    let sizes: Vec<usize> = (0..3).map(|which| run(which, row)).collect();
    assert!(sizes.iter().all(|&size| size == sizes[0]), "{}", row.name);
    let (time, ratios) = turns(3, 1000.0, |which| run(which, row));
    let (left, passes) = (sizes[0] as f64 / many, passes as f64 / many);
    println!("| {} | {} | {left:.1} | {passes:.1} | {:.0} | {:.2} | {:.2} |", row.name, row.floor - SLACK, time * 1e6 / many, ratios[1], ratios[2]);
    [ratios[1], ratios[2]]
}

pub fn all() {
    println!("\n## The core alone\n");
    println!("Graphs of 64 vertices, slack 1: the neighbours asked for, in the mean the vertices left and the passes, the time of a call in ns, and the time");
    println!("of a plain peeling by a queue as a multiple of it, with the same checks of the table and without.\n");
    println!("| graph | neighbours | left | passes | core, ns | queue, checked | queue alone |\n|---|---|---|---|---|---|---|");
    let ratios: Vec<[f64; 2]> = rows().iter().map(line).collect();
    for (at, name) in ["with the checks", "alone"].iter().enumerate() {
        let mean = (ratios.iter().map(|row| row[at].ln()).sum::<f64>() / ratios.len() as f64).exp();
        let least = ratios.iter().map(|row| row[at]).fold(f64::MAX, f64::min);
        println!("{}The queue {name}: {mean:.2} in the geometric mean of {} rows, {least:.2} at least.", if at == 0 { "\n" } else { "" }, ratios.len());
    }
}
