//! The largest k-plex that holds forced vertices: the library beside the plain search after 003, and beside counting the list with the floor at the size found.
use crate::rows::{Row, ROWS};
use crate::{apart, turns};
use outside::instances::Rng;
use outside::plain::looseness;
use std::time::Duration;

/// What is timed, in the order of the columns: the library, and the two that it is held against.
#[derive(Clone, Copy, PartialEq, Eq)]
enum Way {
    Library,
    Plain,
    Counting,
}

use Way::*;

const WAYS: [Way; 3] = [Library, Plain, Counting];

const RIVALS: [Way; 2] = [Plain, Counting];

/// What came of a rival: its time as a multiple of the library's, or it took longer than the limit, or it does not apply.
#[derive(Clone, Copy, PartialEq)]
enum Beside {
    Ratio(f64),
    Over,
    Blank,
}

/// A graph, by its place among the distinct ones, a slack and a forced set.
struct Case {
    graph: usize,
    k: usize,
    forced: u64,
}

/// What a case gave.
struct Line {
    k: usize,
    forced: u32,
    beside: [Beside; 2],
}

/// A row of each distinct graph.
fn graphs() -> Vec<&'static Row> {
    let first = |at: usize| ROWS.iter().position(|row| row.name == ROWS[at].name) == Some(at);
    (0..ROWS.len()).filter(|&at| first(at)).map(|at| &ROWS[at]).collect()
}

/// Forced sets of no, one and three vertices: in an order that is drawn from a seed, the first vertex, and the first three that are a k-plex, if any are.
fn forced_sets(rows: &[u64], k: usize) -> Vec<u64> {
    let (n, mut rng) = (rows.len(), Rng(11));
    let mut order: Vec<usize> = (0..n).collect();
    (0..n).for_each(|i| order.swap(i, i + rng.below(n - i)));
    let triples = (0..n).flat_map(|c| (0..c).flat_map(move |b| (0..b).map(move |a| [a, b, c])));
    let three = triples.map(|places| places.iter().fold(0, |set, &at| set | 1 << order[at])).find(|&set| looseness(rows, set) <= k);
    [Some(0), Some(1 << order[0]), three].into_iter().flatten().collect()
}

impl Way {
    /// The size and the mask that it finds, or how many k-plexes of at least that size there are, with no mask.
    fn run(self, rows: &[u64], case: &Case, size: usize) -> (usize, u64) {
        match self {
            Library => kadvisk::largest(rows, case.k, case.forced).map(|found| (found.size, found.mask)).expect("a forced k-plex"),
            Plain => outside::largest::plain(rows, case.k, case.forced),
            Counting => (kadvisk::count(rows, case.k, size, 0).expect("a valid graph"), 0),
        }
    }

    /// Its place in the order.
    fn place(self) -> usize {
        self as usize
    }
}

impl Case {
    /// The words that start a process for these ways.
    fn words(&self, flag: &str, size: usize, ways: &[Way]) -> Vec<String> {
        let ways = ways.iter().map(|way| way.place().to_string()).collect::<Vec<_>>().join(",");
        vec![flag.into(), self.graph.to_string(), self.k.to_string(), self.forced.to_string(), size.to_string(), ways]
    }

    /// The answer of a way, in a process of its own: none where one run takes longer than the limit.
    fn answer(&self, way: Way, size: usize, limit: Duration) -> Option<(usize, u64)> {
        let said = apart(&self.words("--largest", size, &[way]), limit)?;
        let (first, second) = said.trim().split_once(' ').expect("two numbers");
        Some((first.parse().expect("a number"), second.parse().expect("a mask")))
    }

    /// The time of the library in ms, and the ratios to it of the ways, in turns in a process of their own.
    fn times(&self, size: usize, ways: &[Way]) -> (f64, Vec<f64>) {
        let said = apart(&self.words("--largest-turns", size, ways), Duration::MAX).expect("no limit");
        let mut numbers = said.split_whitespace().map(|word| word.parse::<f64>().expect("a number"));
        (numbers.next().expect("a time"), numbers.collect())
    }

    /// The ways that answer within the limit, the library first. They must agree.
    fn within(&self, answer: (usize, u64), limit: Duration) -> Vec<Way> {
        let mut within = vec![Library];
        if let Some(other) = self.answer(Plain, answer.0, limit) {
            assert_eq!(other, answer, "{} k={} forced={:X}", graphs()[self.graph].name, self.k, self.forced);
            within.push(Plain);
        }
        if self.counts(answer.0) && self.answer(Counting, answer.0, limit).is_some() {
            within.push(Counting);
        }
        within
    }

    /// Is the size a floor that the list accepts?
    fn counts(&self, size: usize) -> bool {
        size + 1 >= 2 * self.k
    }

    /// Prints a row of the table. None where the library takes longer than the limit.
    fn row(&self, limit: Duration) -> Option<Line> {
        print!("| {} | {} | {} |", graphs()[self.graph].name, self.k, self.forced.count_ones());
        let Some(answer) = self.answer(Library, 0, limit) else {
            println!(" | > {} | | |", limit.as_millis());
            return None;
        };
        let within = self.within(answer, limit);
        let (time, ratios) = self.times(answer.0, &within);
        print!(" {} | {time:.4} |", answer.0);
        let beside = RIVALS.map(|rival| match within.iter().position(|&way| way == rival) {
            Some(at) => Beside::Ratio(ratios[at]),
            None if rival == Plain || self.counts(answer.0) => Beside::Over,
            None => Beside::Blank,
        });
        for beside in beside {
            match beside {
                Beside::Ratio(ratio) => print!(" {ratio:.2} |"),
                Beside::Over => print!(" > {:.0} |", limit.as_secs_f64() * 1e3 / time),
                Beside::Blank => print!(" |"),
            }
        }
        println!();
        Some(Line { k: self.k, forced: self.forced.count_ones(), beside })
    }
}

/// One case, given by the words behind its flag: what one way answers, or the time of the library and the ratios of all to it.
pub fn one(words: &[String]) {
    let number = |at: usize| words[at].parse::<usize>().expect("a number");
    let case = Case { graph: number(1), k: number(2), forced: words[3].parse().expect("a mask") };
    let ways: Vec<Way> = words[5].split(',').map(|way| WAYS[way.parse::<usize>().expect("a way")]).collect();
    let rows = (graphs()[case.graph].graph)();
    if words[0] == "--largest" {
        let (first, second) = ways[0].run(&rows, &case, number(4));
        println!("{first} {second}");
        return;
    }
    let (time, ratios) = turns(ways.len(), 1500.0, |at| ways[at].run(&rows, &case, number(4)).0);
    println!("{time} {}", ratios.iter().map(f64::to_string).collect::<Vec<_>>().join(" "));
}

/// The time of the library as a part of a rival's: the geometric mean, the worst and the number of rows, and of how many the rival went over the limit.
fn part_of(lines: &[&Line], rival: usize) -> String {
    let parts: Vec<f64> = lines.iter().filter_map(|line| if let Beside::Ratio(ratio) = line.beside[rival] { Some(1.0 / ratio) } else { None }).collect();
    let over = lines.iter().filter(|line| line.beside[rival] == Beside::Over).count();
    if parts.is_empty() {
        return format!(" | | 0 | {over} |");
    }
    let mean = (parts.iter().map(|part| part.ln()).sum::<f64>() / parts.len() as f64).exp();
    format!(" {mean:.3} | {:.2} | {} | {over} |", parts.iter().copied().fold(0.0, f64::max), parts.len())
}

fn summary(lines: &[Line]) {
    println!("\nThe time of the library as a part of the other's, over the rows where both are within the limit; over: rows where the other alone is not.\n");
    println!("| forced | k | of plain, mean | worst | rows | over | of counting, mean | worst | rows | over |\n|---|---|---|---|---|---|---|---|---|---|");
    for forced in [Some(0), Some(1), Some(3), None] {
        for (name, slacks) in [("1", 1..=1), ("2 to 5", 2..=5), ("1 to 5", 1..=5)] {
            let chosen: Vec<&Line> = lines.iter().filter(|line| slacks.contains(&line.k) && forced.is_none_or(|forced| forced == line.forced)).collect();
            let head = forced.map_or("all".into(), |forced| forced.to_string());
            println!("| {head} | {name} |{}{}", part_of(&chosen, 0), part_of(&chosen, 1));
        }
    }
}

/// The table: each distinct graph, slack 1 to 5, forced sets of 0, 1 and 3 vertices.
pub fn all(only: Option<&str>, limit: Duration) {
    println!("\n## The largest k-plex that holds forced vertices\n");
    println!(
        "Plain is the algorithm of 003 in plain Rust; counting is that of the list with the floor at the size found, where the list accepts it. Their times"
    );
    println!(
        "are multiples of the library's, and one of more than {} s is given as more than that. The forced vertices come from an order of the",
        limit.as_secs()
    );
    println!("vertices that is drawn from a seed: the first one, and the first three that are a k-plex.\n");
    println!("| graph | k | forced | size | largest, ms | plain | counting |\n|---|---|---|---|---|---|---|");
    let mut lines = vec![];
    let mut left = 0;
    for (graph, row) in graphs().iter().enumerate().filter(|(_, row)| only.is_none_or(|name| row.name == name)) {
        for k in 1..=5 {
            for forced in forced_sets(&(row.graph)(), k) {
                match (Case { graph, k, forced }).row(limit) {
                    Some(line) => lines.push(line),
                    None => left += 1,
                }
            }
        }
    }
    summary(&lines);
    println!("\nOver the limit is the library itself in {left} rows.");
}
