//! A change of a book beside listing the changed graph afresh.
use crate::rows::{Row, ROWS};
use crate::{apart, count_apart, turns};
use outside::book::Change;
use outside::instances::{complete, ring, Rng};
use std::cell::RefCell;
use std::time::Duration;

/// A change keeps memory for up to so many masks, and searches twice for a longer list.
const FEW: usize = 4096;

const fn small(name: &'static str, graph: fn() -> Vec<u64>, k: usize, q: usize) -> Row {
    Row { name, graph, k, q }
}

/// Graphs beside those of the table of cuts where listing takes a microsecond or less, so that what a change does beside the search shows: as few candidates
/// as have no more memory, as many as have more, and none.
const SMALL: [Row; 18] = [
    small("ring 3", || ring(3), 1, 1),
    small("ring 5", || ring(5), 1, 1),
    small("ring 5", || ring(5), 2, 3),
    small("ring 8", || ring(8), 2, 3),
    small("complete 8", || complete(8), 2, 3),
    small("complete 9", || complete(9), 2, 3),
    small("ring 15", || ring(15), 1, 1),
    small("ring 15", || ring(15), 1, 3),
    small("ring 19", || ring(19), 1, 1),
    small("ring 20", || ring(20), 1, 1),
    small("complete 19", || complete(19), 2, 3),
    small("complete 20", || complete(20), 2, 3),
    small("ring 24", || ring(24), 1, 1),
    small("ring 24", || ring(24), 2, 3),
    small("ring 47", || ring(47), 1, 1),
    small("ring 48", || ring(48), 1, 1),
    small("ring 64", || ring(64), 1, 1),
    small("ring 64", || ring(64), 1, 3),
];

fn row(at: usize) -> &'static Row {
    if at < ROWS.len() {
        return &ROWS[at];
    }
    &SMALL[at - ROWS.len()]
}

/// How many masks a row's list has: none where counting takes longer than the limit.
fn masks(at: usize, limit: Duration) -> Option<usize> {
    if at < ROWS.len() {
        return count_apart(at, 0, limit);
    }
    let Row { graph, k, q, .. } = row(at);
    Some(kadvisk::count(&graph(), *k, *q, 0).expect("a valid graph"))
}

/// A row's graph and the changes that are timed: of an edge and of a pair that is none, each with the change back, so that the graph is the same in the end.
struct Case {
    row: &'static Row,
    rows: Vec<u64>,
    changes: Vec<Change>,
}

/// What a row gave: the most masks of a list in it, and the time of a change as a multiple of listing afresh.
struct Line {
    most: usize,
    ratio: f64,
}

/// The first pair that is adjacent and the first that is not, in an order that is drawn from a seed.
fn pairs(rows: &[u64]) -> Vec<Change> {
    let (n, mut rng) = (rows.len(), Rng(17));
    let mut pairs: Vec<Change> = (0..n).flat_map(|b| (0..b).map(move |a| (a, b))).map(|(a, b)| Change::of(rows, a, b)).collect();
    let many = pairs.len();
    (0..many).for_each(|i| pairs.swap(i, i + rng.below(many - i)));
    [false, true].iter().filter_map(|&adjacent| pairs.iter().copied().find(|pair| pair.adjacent == adjacent)).collect()
}

impl Case {
    fn of(row: &'static Row) -> Case {
        let rows = (row.graph)();
        let changes = pairs(&rows).into_iter().flat_map(|change| [change, change.back()]).collect();
        Case { row, rows, changes }
    }

    /// The graphs that the changes make, one after the other.
    fn graphs(&self) -> Vec<Vec<u64>> {
        let mut rows = self.rows.clone();
        let mut next = |change: &Change| {
            rows = change.graph(&rows);
            rows.clone()
        };
        self.changes.iter().map(&mut next).collect()
    }

    /// Lists each of these graphs afresh. How many masks there are in all.
    fn list(&self, graphs: &[Vec<u64>], slots: &mut [u64]) -> usize {
        graphs.iter().map(|rows| kadvisk::list(rows, self.row.k, self.row.q, 0, slots).expect("enough slots")).sum()
    }

    /// Makes the changes. How many masks there are in all.
    fn change(&self, rows: &mut [u64], slots: &mut [u64]) -> usize {
        let change = |&Change { a, b, adjacent }: &Change| kadvisk::change(rows, self.row.k, self.row.q, 0, a, b, adjacent, slots);
        self.changes.iter().map(change).map(|m| m.expect("a change, and enough slots")).sum()
    }

    /// The most masks of a list, the time of listing one of the graphs afresh, in ms, and that of a change as a multiple of it: in turns, and into as
    /// many slots.
    fn times(&self) -> (usize, f64, f64) {
        let graphs = self.graphs();
        let most = graphs.iter().map(|rows| kadvisk::count(rows, self.row.k, self.row.q, 0).expect("a valid graph")).max().unwrap_or(0);
        let (rows, slots) = (RefCell::new(self.rows.clone()), RefCell::new(vec![0; most + 3]));
        let changing = || self.change(&mut rows.borrow_mut(), &mut slots.borrow_mut());
        let listing = || self.list(&graphs, &mut slots.borrow_mut());
        assert_eq!(listing(), changing());
        let (time, ratios) = turns(2, 1500.0, |at| if at == 0 { listing() } else { changing() });
        assert_eq!(*rows.borrow(), self.rows);
        (most, time / graphs.len() as f64, ratios[1])
    }
}

/// What a row gives, in this process.
pub fn one(at: usize) {
    let (most, time, ratio) = Case::of(row(at)).times();
    println!("{most} {time} {ratio}");
}

/// Prints a row of the table, with what it gives in a process of its own. None where counting takes longer than the limit.
fn line(at: usize, limit: Duration) -> Option<Line> {
    let Row { name, k, q, .. } = row(at);
    print!("| {name} | {k} | {q} |");
    let Some(m) = masks(at, limit) else {
        println!(" | > {} | |", limit.as_micros());
        return None;
    };
    let said = apart(&["--changes".into(), at.to_string()], Duration::MAX).expect("no limit");
    let numbers: Vec<f64> = said.split_whitespace().map(|word| word.parse().expect("a number")).collect();
    println!(" {m} | {:.2} | {:.2} |", numbers[1] * 1e3, numbers[2]);
    Some(Line { most: numbers[0] as usize, ratio: numbers[2] })
}

/// The geometric mean and the greatest of the ratios.
fn summary(head: &str, ratios: &[f64]) {
    if ratios.is_empty() {
        println!("| {head} | 0 | | |");
        return;
    }
    let mean = (ratios.iter().map(|ratio| ratio.ln()).sum::<f64>() / ratios.len() as f64).exp();
    println!("| {head} | {} | {mean:.3} | {:.2} |", ratios.len(), ratios.iter().copied().fold(0.0, f64::max));
}

/// The table: each row of the table of cuts, and small graphs.
pub fn all(only: Option<&str>, limit: Duration) {
    println!("\n## Changes of a book\n");
    println!("The time of a change as a multiple of that of listing the same graph afresh, into as many slots: over a change of an edge and of a pair that is");
    println!("none, and the changes back. A row whose list takes more than {} s to count is left.\n", limit.as_secs());
    println!("| graph | k | q | m | listing, µs | change |\n|---|---|---|---|---|---|");
    let chosen = (0..ROWS.len() + SMALL.len()).filter(|&at| only.is_none_or(|name| row(at).name == name));
    let lines: Vec<Line> = chosen.filter_map(|at| line(at, limit)).collect();
    println!("\nThe ratios, by the longest list of a row:\n\n| masks | rows | geometric mean | greatest |\n|---|---|---|---|");
    for (head, chosen) in [(format!("up to {FEW}"), 0..FEW + 1), (format!("more than {FEW}"), FEW + 1..usize::MAX), ("any".into(), 0..usize::MAX)] {
        summary(&head, &lines.iter().filter(|line| chosen.contains(&line.most)).map(|line| line.ratio).collect::<Vec<_>>());
    }
}
