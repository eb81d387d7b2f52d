//! Many instances of other kinds, with up to 64 vertices, each at two floors where a run takes at most some milliseconds: to find where a rival is faster.
use crate::{apart, median, once};
use outside::instances::*;
use outside::refusals::MOST_SLACK;
use outside::{cliques, fp};
use std::time::Duration;

/// A run that takes longer than this is left out, in ms.
const LONGEST: f64 = 4.0;

/// Each vertex of a cycle is adjacent to the d next ones.
fn cycle(n: usize, d: usize) -> Vec<u64> {
    let mut rows = vec![0; n];
    for v in 0..n {
        for u in (1..=d).map(|i| (v + i) % n) {
            rows[v] |= 1 << u;
            rows[u] |= 1 << v;
        }
    }
    rows
}

fn complement(rows: &[u64]) -> Vec<u64> {
    let all = u64::MAX >> (64 - rows.len());
    rows.iter().enumerate().map(|(v, row)| all & !row & !(1 << v)).collect()
}

fn star(n: usize) -> Vec<u64> {
    (0..n).map(|v| if v == 0 { u64::MAX >> (64 - n) & !1 } else { 1 }).collect()
}

/// Every graph here, and its complement too where `both` says so.
fn graphs() -> Vec<(String, Vec<u64>)> {
    let mut graphs = vec![];
    let mut add = |name: String, rows: Vec<u64>, both: bool| {
        if both {
            graphs.push((format!("{name}, complement"), complement(&rows)));
        }
        graphs.push((name, rows));
    };
    for n in [12, 24, 40, 64] {
        [0.05, 0.1, 0.15, 0.25, 0.4, 0.6, 0.8, 0.95].iter().for_each(|&p| add(format!("random {p}, n = {n}"), random(n, p, 7), false));
        [1, 2, 3, 5].iter().for_each(|&d| add(format!("cycle of {d}, n = {n}"), cycle(n, d), true));
        add(format!("star, n = {n}"), star(n), false);
        add(format!("two parts, n = {n}"), multipartite(n, n / 2), true);
        add(format!("empty, n = {n}"), vec![0; n], true);
    }
    (1..=5).for_each(|d| add(format!("hamming6-{d}"), hamming6(d), true));
    [2, 4, 8, 16, 32].iter().for_each(|&size| add(format!("multipartite {size}"), multipartite(64, size), true));
    add("johnson8-2-4".into(), johnson8_2_4(), true);
    add("MANN_a9".into(), mann_a9(), true);
    [4, 8, 16].iter().for_each(|&size| add(format!("ring of cliques of {size}"), ring_of_cliques(64, size), false));
    graphs
}

fn ours(rows: &[u64], k: usize, q: usize) -> usize {
    kadvisk::count(rows, k, q, 0).expect("a valid graph")
}

fn published(rows: &[u64], k: usize, q: usize) -> usize {
    let mut found = 0;
    fp::run(rows, k, q, &mut |_| found += 1);
    found
}

fn bron_kerbosch(rows: &[u64], q: usize) -> usize {
    let mut found = 0;
    cliques::run(rows, q, &mut |_| found += 1);
    found
}

/// The median ratio of the rival's time to ours, in turns.
fn ratio(time: f64, ours: impl Fn() -> usize, rival: impl Fn() -> usize) -> f64 {
    assert_eq!(ours(), rival());
    median((0..5).map(|_| (once(time, &ours), once(time, &rival))).map(|(our, their)| their / our).collect())
}

/// The middle and the lowest of the floors from n down at which a run is short.
fn floors(rows: &[u64], k: usize) -> Vec<usize> {
    let short = |&q: &usize| once(LONGEST, || ours(rows, k, q)) <= LONGEST;
    let all: Vec<usize> = (2 * k - 1..=rows.len()).rev().take_while(short).collect();
    let mut chosen: Vec<usize> = [all.get(all.len() / 2), all.last()].into_iter().flatten().copied().collect();
    chosen.dedup();
    chosen
}

/// One graph and one slack: a line for each floor and rival.
pub fn one(graph: usize, k: usize) {
    let (name, rows) = &graphs()[graph];
    for q in floors(rows, k) {
        let time = once(LONGEST, || ours(rows, k, q));
        println!("{} {time} {name} against fp, k = {k}, q = {q}", ratio(time, || ours(rows, k, q), || published(rows, k, q)));
        if k == 1 {
            println!("{} {time} {name} against BK, k = 1, q = {q}", ratio(time, || ours(rows, k, q), || bron_kerbosch(rows, q)));
        }
    }
}

/// All of them, each graph and slack in a process of its own, which is ended after some seconds.
pub fn all() {
    println!("\n## Other instances\n");
    let mut cases: Vec<(f64, f64, String)> = vec![];
    let mut left = 0;
    for graph in 0..graphs().len() {
        for k in 1..=MOST_SLACK {
            let Some(said) = apart(&["--wide".into(), graph.to_string(), k.to_string()], Duration::from_secs(5)) else {
                left += 1;
                continue;
            };
            for line in said.lines() {
                let mut words = line.splitn(3, ' ');
                let mut number = || words.next().and_then(|word| word.parse().ok()).expect("a number");
                cases.push((number(), number(), words.next().expect("a name").into()));
            }
        }
    }
    cases.sort_by(|a, b| a.0.total_cmp(&b.0));
    for rival in ["fp", "BK"] {
        let mine: Vec<_> = cases.iter().filter(|case| case.2.contains(&format!("against {rival}"))).collect();
        let slower = |from: f64, to: f64| mine.iter().filter(|case| case.0 < 1.0 && from <= case.1 && case.1 < to).count();
        let of = |from: f64, to: f64| mine.iter().filter(|case| from <= case.1 && case.1 < to).count();
        let part = |from, to| format!("{} of {}", slower(from, to), of(from, to));
        println!("- {rival} is faster in {} below 0.1 ms, {} up to 1 ms, {} above", part(0.0, 0.1), part(0.1, 1.0), part(1.0, f64::MAX));
    }
    println!("- {left} pairs of a graph and a slack took too long and are left out\n\n| instance | ms | ratio |\n|---|---|---|");
    cases.iter().filter(|case| case.0 < 1.0 && case.1 >= 0.1).for_each(|(ratio, time, name)| println!("| {name} | {time:.3} | {ratio:.2} |"));
}
