//! The list with silent vertices beside listing all and keeping those that have enough members that are not silent.
use crate::rows::ROWS;
use crate::{apart, turns};
use outside::instances::Rng;
use outside::refusals::MOST_SLACK;
use std::cell::RefCell;
use std::time::Duration;

/// How many vertices are silent.
#[derive(Clone, Copy, PartialEq, Eq)]
enum Silent {
    Half,
    /// Four.
    Few,
    /// All but eight.
    Most,
}

use Silent::*;

/// A graph by its name in the table of cuts, a slack, a floor and how many vertices are silent: such that listing all takes at most some seconds, and some of
/// what is listed stays, but not all.
const CASES: &[(&str, usize, usize, Silent)] = &[
    ("random 0.1", 1, 2, Half),
    ("random 0.1", 2, 3, Half),
    ("random 0.1", 3, 5, Half),
    ("random 0.2", 1, 2, Half),
    ("random 0.2", 2, 3, Half),
    ("random 0.2", 3, 5, Half),
    ("random 0.2", 4, 7, Half),
    ("random 0.3", 1, 3, Half),
    ("random 0.3", 2, 4, Half),
    ("random 0.3", 3, 5, Half),
    ("random 0.3", 4, 8, Half),
    ("random 0.3", 5, 10, Half),
    ("random 0.4", 1, 3, Half),
    ("random 0.4", 2, 5, Half),
    ("random 0.4", 3, 6, Half),
    ("random 0.4", 4, 9, Half),
    ("random 0.5", 1, 4, Half),
    ("random 0.5", 2, 5, Half),
    ("random 0.5", 3, 8, Half),
    ("random 0.6", 1, 5, Half),
    ("random 0.6", 2, 7, Half),
    ("random 0.6", 3, 11, Half),
    ("random 0.7", 1, 6, Half),
    ("random 0.7", 2, 8, Half),
    ("random 0.8", 1, 7, Half),
    ("random 0.9", 1, 11, Half),
    ("planted", 1, 4, Half),
    ("planted", 2, 5, Half),
    ("planted", 3, 7, Half),
    ("planted", 4, 9, Half),
    ("planted", 5, 11, Half),
    ("disjoint communities", 1, 5, Half),
    ("disjoint communities", 2, 6, Half),
    ("disjoint communities", 3, 8, Half),
    ("disjoint communities", 4, 10, Half),
    ("disjoint communities", 5, 14, Half),
    ("communities", 1, 3, Half),
    ("communities", 2, 5, Half),
    ("communities", 3, 6, Half),
    ("communities", 4, 8, Half),
    ("communities", 5, 9, Half),
    ("multipartite 16", 1, 3, Half),
    ("hamming6-2", 1, 11, Half),
    ("hamming6-4", 1, 2, Half),
    ("hamming6-4", 2, 4, Half),
    ("hamming6-4", 3, 5, Half),
    ("hamming6-4", 4, 8, Half),
    ("hamming6-4", 5, 10, Half),
    ("johnson8-2-4", 1, 2, Half),
    ("johnson8-2-4", 2, 4, Half),
    ("johnson8-2-4", 3, 6, Half),
    ("johnson8-2-4", 4, 7, Half),
    ("johnson8-2-4", 5, 9, Half),
    ("MANN_a9", 1, 8, Half),
    ("MANN_a9", 2, 17, Half),
    ("random 0.1", 1, 1, Few),
    ("random 0.2", 3, 5, Few),
    ("random 0.3", 2, 4, Few),
    ("random 0.4", 4, 10, Few),
    ("random 0.5", 1, 5, Few),
    ("random 0.5", 2, 7, Few),
    ("random 0.7", 1, 9, Few),
    ("random 0.8", 2, 20, Few),
    ("random 0.9", 3, 36, Few),
    ("planted", 5, 12, Few),
    ("communities", 4, 7, Few),
    ("hamming6-4", 3, 6, Few),
    ("johnson8-2-4", 5, 10, Few),
    ("random 0.1", 1, 1, Most),
    ("random 0.3", 2, 3, Most),
    ("random 0.5", 1, 2, Most),
    ("random 0.5", 2, 4, Most),
    ("random 0.5", 3, 5, Most),
    ("random 0.6", 2, 3, Most),
    ("random 0.7", 1, 3, Most),
    ("planted", 3, 5, Most),
    ("disjoint communities", 2, 3, Most),
    ("hamming6-4", 2, 3, Most),
    ("johnson8-2-4", 3, 5, Most),
    ("MANN_a9", 1, 5, Most),
];

/// A case with its graph and the mask of its silent vertices.
struct Case {
    rows: Vec<u64>,
    k: usize,
    q: usize,
    silent: u64,
}

/// So many vertices of n, drawn from a seed.
fn drawn(n: usize, count: usize, seed: u64) -> u64 {
    let (mut order, mut rng): (Vec<usize>, Rng) = ((0..n).collect(), Rng(seed));
    (0..n).for_each(|i| order.swap(i, i + rng.below(n - i)));
    order[..count].iter().map(|&v| 1 << v).sum()
}

impl Case {
    fn of(at: usize) -> Case {
        let (name, k, q, how) = CASES[at];
        let rows = (ROWS.iter().find(|row| row.name == name).expect("a graph of the table of cuts").graph)();
        let silent = match how {
            Half => drawn(rows.len(), rows.len() / 2, 1),
            Few => drawn(rows.len(), 4, 2),
            Most => drawn(rows.len(), rows.len() - 8, 3),
        };
        Case { rows, k, q, silent }
    }

    fn count(&self, silent: u64) -> usize {
        kadvisk::count(&self.rows, self.k, self.q, silent).expect("a valid graph")
    }

    fn list(&self, silent: u64, slots: &mut [u64]) -> usize {
        kadvisk::list(&self.rows, self.k, self.q, silent, slots).expect("enough slots")
    }

    fn stays(&self, s: u64) -> bool {
        (s & !self.silent).count_ones() as usize >= self.q
    }

    /// Lists all, and counts those that stay.
    fn count_filtered(&self, slots: &mut [u64]) -> usize {
        let all = self.list(0, slots);
        slots[..all].iter().filter(|&&s| self.stays(s)).count()
    }

    /// Lists all, and moves those that stay to the front.
    fn list_filtered(&self, slots: &mut [u64]) -> usize {
        let all = self.list(0, slots);
        let mut kept = 0;
        for at in 0..all {
            let s = slots[at];
            slots[kept] = s;
            kept += self.stays(s) as usize;
        }
        kept
    }

    /// How many masks there are in all, and how many stay; then, for counting and for storing, the time of listing all and filtering, in ms, and that of the
    /// list with silent vertices as a part of it: in turns, and into as many slots.
    fn times(&self) -> [f64; 6] {
        let (all, m) = (self.count(0), self.count(self.silent));
        let (mut first, mut second) = (vec![0; all], vec![0; all]);
        assert_eq!((self.list_filtered(&mut first), self.list(self.silent, &mut second)), (m, m));
        assert!(first[..m] == second[..m]);
        let slots = RefCell::new(first);
        let counting = |at: usize| if at == 0 { self.count_filtered(&mut slots.borrow_mut()) } else { self.count(self.silent) };
        let storing = |at: usize| if at == 0 { self.list_filtered(&mut slots.borrow_mut()) } else { self.list(self.silent, &mut slots.borrow_mut()) };
        let (counted, stored) = (turns(2, 1500.0, counting), turns(2, 1500.0, storing));
        [all as f64, m as f64, counted.0, counted.1[1], stored.0, stored.1[1]]
    }
}

/// What a case gives, in this process: times, or how many masks there are in all.
pub fn one(arguments: &[String]) {
    let case = Case::of(arguments[1].parse().expect("a case"));
    match arguments[0].as_str() {
        "--silent" => println!("{}", case.times().map(|number| number.to_string()).join(" ")),
        _ => println!("{}", case.count(0)),
    }
}

/// The ratios of a case: counted and stored.
struct Line {
    k: usize,
    how: Silent,
    ratios: [f64; 2],
}

/// Prints a row of the table, with what it gives in a process of its own. None where counting all takes longer than the limit.
fn line(at: usize, limit: Duration) -> Option<Line> {
    let (name, k, q, how) = CASES[at];
    print!("| {name} | {k} | {q} | {} |", Case::of(at).silent.count_ones());
    if apart(&["--silent-count".into(), at.to_string()], limit).is_none() {
        println!(" | | > {} | | | | | |", limit.as_millis());
        return None;
    }
    let said = apart(&["--silent".into(), at.to_string()], Duration::MAX).expect("no limit");
    let numbers: Vec<f64> = said.split_whitespace().map(|word| word.parse().expect("a number")).collect();
    let [all, m, counted, count_ratio, stored, store_ratio] = numbers[..] else { panic!("six numbers: {said}") };
    print!(" {all} | {m} | {counted:.3} | {:.3} | {count_ratio:.2} |", counted * count_ratio);
    println!(" {stored:.3} | {:.3} | {store_ratio:.2} |", stored * store_ratio);
    Some(Line { k, how, ratios: [count_ratio, store_ratio] })
}

/// The geometric mean and the greatest of the ratios, counted and stored.
fn summary(head: &str, lines: &[&Line]) {
    print!("| {head} | {} |", lines.len());
    for which in 0..2 {
        let ratios: Vec<f64> = lines.iter().map(|line| line.ratios[which]).collect();
        let mean = (ratios.iter().map(|ratio| ratio.ln()).sum::<f64>() / ratios.len() as f64).exp();
        match ratios.len() {
            0 => print!(" | |"),
            _ => print!(" {mean:.3} | {:.2} |", ratios.iter().copied().fold(0.0, f64::max)),
        }
    }
    println!();
}

/// The table, and its means.
pub fn all(only: Option<&str>, limit: Duration) {
    println!("\n## Silent vertices\n");
    println!("Filtered: all maximal k-plexes of q or more members are listed, and those of which q are not silent are counted, or moved to the front.");
    println!("With: the list with silent vertices, into as many slots, or into none to count. The ratio is that of with to filtered. A row whose whole");
    println!("list takes more than {} s to count is left.\n", limit.as_secs());
    println!("| graph | k | q | silent | all | m | counted: filtered, ms | with, ms | ratio | stored: filtered, ms | with, ms | ratio |");
    println!("|---|---|---|---|---|---|---|---|---|---|---|---|");
    let chosen = (0..CASES.len()).filter(|&at| only.is_none_or(|name| CASES[at].0 == name));
    let lines: Vec<Line> = chosen.filter_map(|at| line(at, limit)).collect();
    println!("\n| silent | rows | counted: geometric mean | greatest | stored: geometric mean | greatest |\n|---|---|---|---|---|---|");
    for k in 1..=MOST_SLACK {
        summary(&format!("half, k = {k}"), &lines.iter().filter(|line| line.how == Half && line.k == k).collect::<Vec<_>>());
    }
    for (head, how) in [("half", Half), ("four", Few), ("all but eight", Most)] {
        summary(head, &lines.iter().filter(|line| line.how == how).collect::<Vec<_>>());
    }
    summary("any", &lines.iter().collect::<Vec<_>>());
}
