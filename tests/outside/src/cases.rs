//! Inputs that several tests share.
use crate::dimacs;
use crate::instances::{self, Rng};
use crate::plain::full;
use crate::refusals::MOST_SLACK;

/// How many cases a test tries: `n`, and 25 times as many in the longer mode (KADVISK_LONG in the environment).
pub fn many(n: usize) -> usize {
    if std::env::var_os("KADVISK_LONG").is_some() {
        25 * n
    } else {
        n
    }
}

/// Every graph of n vertices.
pub fn all_graphs(n: usize) -> impl Iterator<Item = Vec<u64>> {
    let pairs: Vec<(usize, usize)> = (0..n).flat_map(|a| (0..a).map(move |b| (a, b))).collect();
    (0..1u64 << pairs.len()).map(move |choice| {
        let mut rows = vec![0u64; n];
        for (i, &(a, b)) in pairs.iter().enumerate() {
            if choice >> i & 1 == 1 {
                rows[a] |= 1 << b;
                rows[b] |= 1 << a;
            }
        }
        rows
    })
}

/// A graph of `low` to `high` vertices, of any density, now and then with dense parts.
pub fn graph(rng: &mut Rng, low: usize, high: usize) -> Vec<u64> {
    let (n, p, seed) = (rng.between(low, high), 0.02 + 0.96 * rng.unit(), rng.word());
    match rng.below(4) {
        0 => instances::planted(n, p / 3.0, 2, rng.between(1, n), 0.9, seed),
        1 => instances::communities(n, rng.between(1, n), 0.9, p / 4.0, seed),
        _ => instances::random(n, p, seed),
    }
}

/// As [`graph`], of two vertices or more: each that has no neighbour is joined to another.
pub fn linked(rng: &mut Rng, low: usize, high: usize) -> Vec<u64> {
    let mut rows = graph(rng, low, high);
    let n = rows.len();
    for a in 0..n {
        if rows[a] == 0 {
            instances::connect(&mut rows, a, (a + rng.between(1, n - 1)) % n);
        }
    }
    rows
}

/// A graph: of eight one as it comes, of one vertex or more, one in which a vertex has no neighbour, and the others linked.
pub fn mostly_linked(rng: &mut Rng, high: usize) -> Vec<u64> {
    let kind = rng.below(8);
    let mut rows = if kind == 0 { graph(rng, 1, high) } else { linked(rng, 2, high) };
    if kind == 1 {
        let v = rng.below(rows.len());
        isolate(&mut rows, 1 << v);
    }
    rows
}

/// Takes all edges of the vertices of a set.
pub fn isolate(rows: &mut [u64], set: u64) {
    for (a, row) in rows.iter_mut().enumerate() {
        *row = if set >> a & 1 == 1 { 0 } else { *row & !set };
    }
}

/// A set of vertices below n, of any density.
pub fn subset(rng: &mut Rng, n: usize) -> u64 {
    let p = rng.unit();
    (0..n).filter(|_| rng.chance(p)).map(|v| 1u64 << v).sum()
}

/// Silent vertices below n: none, all, or some, more often few than many.
pub fn silent(rng: &mut Rng, n: usize) -> u64 {
    match rng.below(8) {
        0 => 0,
        1 => full(n),
        _ => subset(rng, n) & subset(rng, n),
    }
}

/// A k-plex, grown by random vertices while it stays one and a throw allows.
pub fn grown_plex(rng: &mut Rng, rows: &[u64], k: usize) -> u64 {
    let mut s = 0;
    for _ in 0..rng.below(3 * rows.len() + 1) {
        let v = rng.below(rows.len());
        if crate::plain::looseness(rows, s | 1 << v) <= k {
            s |= 1 << v;
        }
    }
    s
}

/// The four dense or sparse ways in which a table can be wrong, now and then, in place.
pub fn damage(rng: &mut Rng, rows: &mut [u64]) {
    let n = rows.len();
    if n == 0 {
        return;
    }
    for _ in 0..rng.below(3) {
        let a = rng.below(n);
        match rng.below(4) {
            0 => rows[a] ^= 1 << (a % 64),
            1 => rows[a] ^= 1 << rng.below(64),
            2 => rows[a] ^= 1 << rng.below(n.min(64)),
            _ => rows[a] = rng.word(),
        }
    }
}

/// Five vertices without an edge, and the chosen ones of the causes 1, 4 and 5: with 1 there is no row, or 65; row 3 has its own bit; row 2 has 1, whose row
/// lacks 2.
pub fn faulty_rows(causes: [bool; 3], empty: bool) -> Vec<u64> {
    with_faults(vec![0; 5], causes, empty)
}

/// The lowest vertex that has no neighbour where cause 14 is chosen, in each of four ways.
pub const LOWEST_ISOLATED: [usize; 4] = [4, 0, 1, 0];

/// Five vertices of which all are adjacent but 1 and 2, and the chosen ones of the causes 1, 4 and 5, as above, and 14: some vertices have no neighbour, in
/// one of four ways, and the row of the lowest is 0 whatever else is chosen.
pub fn faulty_linked_rows([vertices, row, one_way, isolated]: [bool; 4], empty: bool, way: usize) -> Vec<u64> {
    let mut rows = vec![0x1E, 0x19, 0x19, 0x17, 0x0F];
    if isolated {
        isolate(&mut rows, [0x10, 0x01, 0x12, 0x1F][way]);
    }
    with_faults(rows, [vertices, row, one_way], empty)
}

fn with_faults(mut rows: Vec<u64>, [vertices, row, one_way]: [bool; 3], empty: bool) -> Vec<u64> {
    if vertices {
        rows.resize(if empty { 0 } else { 65 }, 0);
    }
    if row && rows.len() > 3 {
        rows[3] |= 1 << 3;
    }
    if one_way && rows.len() > 2 {
        rows[2] |= 1 << 1;
    }
    rows
}

/// The first of these refusals that is chosen.
pub fn first_of<const N: usize>(refusals: [(usize, usize); N], chosen: [bool; N]) -> Option<(usize, usize)> {
    refusals.into_iter().zip(chosen).find(|(_, holds)| *holds).map(|(refusal, _)| refusal)
}

/// Very large slacks: of some the lowest 8, 16 or 32 bits would be accepted by themselves.
pub const LARGE_SLACKS: [usize; 14] =
    [63, 64, 65, 255, 256, 261, (1 << 16) + 5, (1 << 31) + 1, u32::MAX as usize, 1 << 32, (1 << 32) + 5, 1 << 63, (1 << 63) + 1, usize::MAX];

/// A slack: mostly one that is accepted, else one of 0 to 40 or a very large one.
pub fn slack(rng: &mut Rng) -> usize {
    match rng.below(10) {
        0 | 1 => rng.below(41),
        2 => LARGE_SLACKS[rng.below(LARGE_SLACKS.len())],
        _ => rng.between(1, MOST_SLACK),
    }
}

/// A floor at and around the limits.
pub fn floor(rng: &mut Rng, k: usize) -> usize {
    let least = k.wrapping_mul(2).wrapping_sub(1);
    [0, least, least, least, least.wrapping_sub(1), least.wrapping_add(1), least.wrapping_add(3), 62, 63, 64, 65, 256, usize::MAX][rng.below(13)]
}

pub fn shuffle<T>(rng: &mut Rng, items: &mut [T]) {
    for i in (1..items.len()).rev() {
        items.swap(i, rng.below(i + 1));
    }
}

/// The lines of a text, each with its byte 10.
pub fn lines_of(text: &[u8]) -> Vec<Vec<u8>> {
    text.split_inclusive(|&byte| byte == b'\n').map(<[u8]>::to_vec).collect()
}

/// A comment line of any bytes.
pub fn comment(rng: &mut Rng) -> Vec<u8> {
    let bytes: Vec<u8> = (0..rng.below(20)).map(|_| rng.word() as u8).filter(|&byte| byte != b'\n').collect();
    [b"c", &bytes[..], b"\n"].concat()
}

/// A graph in the DIMACS form: its e lines in any order and either way round, a few of them repeated, and comments anywhere.
pub fn dimacs_text(rng: &mut Rng, rows: &[u64]) -> Vec<u8> {
    let mut edges = dimacs::edges(rows);
    for _ in 0..rng.below(3).min(edges.len()) {
        edges.push(edges[rng.below(edges.len())]);
    }
    shuffle(rng, &mut edges);
    let turned = edges.iter().map(|&(u, v)| if rng.chance(0.5) { (u, v) } else { (v, u) });
    let edges: Vec<Vec<u8>> = turned.map(|edge| dimacs::edge_line(&edge).into_bytes()).collect();
    let mut lines = [&[dimacs::problem_line(rows.len(), edges.len()).into_bytes()], &edges[..]].concat();
    for _ in 0..rng.below(5) {
        lines.insert(rng.below(lines.len() + 1), comment(rng));
    }
    lines.concat()
}

/// Bytes that a DIMACS text may have, and some that look like them.
const DIMACS_BYTES: &[u8] = b"0123456789 \n\r\tcpedgCPE+-.\0\x80\xFF";

/// Lines that a DIMACS text may have, and some that look like them.
const DIMACS_LINES: &[&[u8]] = &[
    b"c\n",
    b"\n",
    b"c another line\n",
    b"p edge 3 2\n",
    b"p edge 0 0\n",
    b"p edge 65 0\n",
    b"p edge 5 4294967296\n",
    b"p col 3 2\n",
    b"e 1 2\n",
    b"e 2 1\n",
    b"e 3 3\n",
    b"e 0 1\n",
    b"e 1 18446744073709551618\n",
    b"e 1 2 \n",
    b"e 1 2\r\n",
    b"e 1\n",
    b"n 1 2\n",
];

/// Figures that are right in some place or other, and some that are none.
const DIMACS_FIGURES: &[&[u8]] = &[
    b"0",
    b"1",
    b"2",
    b"3",
    b"63",
    b"64",
    b"65",
    b"256",
    b"4294967295",
    b"4294967296",
    b"4294967297",
    b"18446744073709551616",
    b"18446744073709551617",
    b"9999999999999999999999999999999999999999",
    b"",
    b"00",
    b"01",
    b"-1",
    b"+1",
    b"1x",
];

/// Changes, inserts or drops a byte, or cuts the end off.
fn damage_bytes(rng: &mut Rng, text: &mut Vec<u8>) {
    let (at, byte) = (rng.below(text.len()), DIMACS_BYTES[rng.below(DIMACS_BYTES.len())]);
    match rng.below(5) {
        0 => text[at] = byte,
        1 => text[at] = rng.word() as u8,
        2 => text.insert(at, byte),
        3 => drop(text.remove(at)),
        _ => text.truncate(at),
    }
}

/// Puts another field in place of one of the line's.
fn damage_field(rng: &mut Rng, line: &mut Vec<u8>) {
    let mut fields: Vec<&[u8]> = line.strip_suffix(b"\n").unwrap_or(line).split(|&byte| byte == b' ').collect();
    let at = rng.below(fields.len());
    fields[at] = DIMACS_FIGURES[rng.below(DIMACS_FIGURES.len())];
    *line = [&fields.join(&b' ')[..], b"\n"].concat();
}

/// Doubles, drops or swaps a line, puts another before it, or damages a field of it.
fn damage_lines(rng: &mut Rng, lines: &mut Vec<Vec<u8>>) {
    let (at, other) = (rng.below(lines.len()), rng.below(lines.len()));
    match rng.below(6) {
        0 => lines.insert(other, lines[at].clone()),
        1 => drop(lines.remove(at)),
        2 => lines.swap(at, other),
        3 => lines.insert(at, DIMACS_LINES[rng.below(DIMACS_LINES.len())].to_vec()),
        _ => damage_field(rng, &mut lines[at]),
    }
}

/// Damages a DIMACS text in one place.
pub fn damage_dimacs(rng: &mut Rng, text: &mut Vec<u8>) {
    if text.is_empty() {
        return;
    }
    if rng.chance(0.5) {
        damage_bytes(rng, text);
    } else {
        let mut lines = lines_of(text);
        damage_lines(rng, &mut lines);
        *text = lines.concat();
    }
}
