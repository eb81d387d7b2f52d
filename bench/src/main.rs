//! Times the library on graphs of our own making: with each cut switched, against independent implementations, what placing costs, how the time
//! grows, the largest k-plex, changes of a book, silent vertices, the core alone, the bounds alone, and reading graphs in the DIMACS form.
//! Prints tables in Markdown. One command:
//!
//!   cargo run --release --offline --package bench
//!
//!   bench --part NAME     cuts, placing, growth, largest, changes, silent, cores, bounds or dimacs alone, or wide: many instances of other kinds
//!   bench --only NAME     the rows of one graph in the tables of cuts, of the largest k-plex, of changes and of silent vertices
//!   bench --rivals        the table of cuts with the independent implementations alone
//!   bench --limit S       leave a run that takes more than S seconds (3)
mod bounds;
mod changes;
mod clock;
mod cores;
mod dimacs;
mod largest;
mod rows;
mod silent;
mod variants;
mod wide;

use outside::instances;
use rows::{Row, ROWS};
use std::io::Read;
use std::process::{Command, Stdio};
use std::time::{Duration, Instant};
use variants::{Variant, VARIANTS};

fn median(mut times: Vec<f64>) -> f64 {
    times.sort_by(f64::total_cmp);
    times[times.len() / 2]
}

/// The time of one run in ms. A short one is repeated, for 3 ms together; `first` is what it took before.
fn once(first: f64, work: impl Fn() -> usize) -> f64 {
    let repeats = (3.0 / first) as usize + 1;
    clock::timed(|| (0..repeats).map(|_| std::hint::black_box(work())).max()).1 / repeats as f64
}

/// The count and the median time in ms: one run to warm up, then five, or as many as two seconds allow.
fn measure(work: impl Fn() -> usize) -> (usize, f64) {
    let (count, first) = clock::timed(&work);
    let runs = ((2000.0 / first) as usize).clamp(1, 5);
    (count, median((0..runs).map(|_| once(first, &work)).collect()))
}

/// Starts this program again, for one row, and gives what it says: none where it takes longer than the limit.
fn apart(words: &[String], limit: Duration) -> Option<String> {
    let program = std::env::current_exe().expect("this program has a path");
    let mut child = Command::new(program).args(words).stdout(Stdio::piped()).spawn().expect("it starts again");
    let start = Instant::now();
    while child.try_wait().expect("a child").is_none() {
        if start.elapsed() > limit {
            child.kill().expect("a child");
            child.wait().expect("a child");
            return None;
        }
        std::thread::sleep(Duration::from_millis(2));
    }
    let mut said = String::new();
    child.stdout.take().expect("a pipe").read_to_string(&mut said).expect("text");
    Some(said)
}

/// The count of a variant, in a process of its own: none where one run takes longer than the limit.
fn count_apart(row: usize, variant: usize, limit: Duration) -> Option<usize> {
    let said = apart(&["--count".into(), row.to_string(), variant.to_string()], limit)?;
    Some(said.trim().parse().expect("a count"))
}

/// The time of the first of so many runs, and the ratio of each to it. They run in turns, so that what else the machine does meets them alike: each
/// ratio is taken within its round, and the median over the rounds is given. A first run of each is the warm-up. There are 5 to 15 rounds, by the time
/// in ms that they may take.
fn turns(runs: usize, most: f64, run: impl Fn(usize) -> usize) -> (f64, Vec<f64>) {
    let firsts: Vec<f64> = (0..runs).map(|i| clock::timed(|| run(i)).1).collect();
    let rounds = ((most / firsts.iter().sum::<f64>()) as usize).clamp(5, 15);
    let round = || -> Vec<f64> { firsts.iter().enumerate().map(|(i, &first)| once(first, || run(i))).collect() };
    let times: Vec<Vec<f64>> = (0..rounds).map(|_| round()).collect();
    let ratio = |i: usize| median(times.iter().map(|round| round[i] / round[0]).collect());
    (median(times.iter().map(|round| round[0]).collect()), (0..runs).map(ratio).collect())
}

/// The time of the first of these variants, and the ratio of each to it.
fn in_turns(row: &Row, variants: &[usize]) -> (f64, Vec<f64>) {
    let graph = (row.graph)();
    turns(variants.len(), 6000.0, |i| VARIANTS[variants[i]].count(&graph, row.k, row.q))
}

/// The same in a process of its own.
fn in_turns_apart(row: usize, variants: &[usize]) -> (f64, Vec<f64>) {
    let list = variants.iter().map(usize::to_string).collect::<Vec<_>>().join(",");
    let said = apart(&["--turns".into(), row.to_string(), list], Duration::MAX).expect("no limit");
    let mut numbers = said.split_whitespace().map(|word| word.parse::<f64>().expect("a number"));
    (numbers.next().expect("a time"), numbers.collect())
}

/// One row of the table of cuts, and the ratio of each variant, if it was within the limit.
fn cut_row(at: usize, row: &Row, chosen: &[usize], limit: Duration) -> Vec<Option<f64>> {
    print!("| {} | {} | {} |", row.name, row.k, row.q);
    let applies = |i: usize| row.k == 1 || !matches!(VARIANTS[i], Variant::Cliques | Variant::PivotOff);
    let counts: Vec<Option<usize>> = chosen.iter().map(|&i| if applies(i) { count_apart(at, i, limit) } else { None }).collect();
    let Some(m) = counts[0] else {
        println!(" | > {} |{}", limit.as_millis(), " |".repeat(chosen.len() - 1));
        return vec![];
    };
    counts.iter().flatten().for_each(|&count| assert_eq!(count, m, "{} k={} q={}", row.name, row.k, row.q));
    let within: Vec<usize> = chosen.iter().zip(&counts).filter(|(_, count)| count.is_some()).map(|(&i, _)| i).collect();
    let (all, ratios) = in_turns_apart(at, &within);
    print!(" {m} | {all:.3} |");
    let ratios: Vec<Option<f64>> = chosen.iter().map(|i| within.iter().position(|j| j == i).map(|at| ratios[at])).collect();
    for (&i, ratio) in chosen.iter().zip(&ratios).skip(1) {
        match ratio {
            Some(ratio) => print!(" {ratio:.2} |"),
            None if applies(i) => print!(" > {:.0} |", limit.as_secs_f64() * 1e3 / all),
            None => print!(" |"),
        }
    }
    println!();
    ratios
}

fn cuts(only: Option<&str>, rivals: bool, limit: Duration) {
    let chosen: Vec<usize> = (0..VARIANTS.len()).filter(|&i| !rivals || i == 0 || VARIANTS[i].is_rival()).collect();
    println!("## Cuts\n");
    println!(
        "Time with all cuts, and the time of each variant as a multiple of it. A variant that took longer than {} s is given as more than that.\n",
        limit.as_secs()
    );
    print!("| graph | k | q | m |");
    chosen.iter().for_each(|&i| print!(" {} |", VARIANTS[i].head()));
    println!("\n|---|---|---|---|{}", "---|".repeat(chosen.len()));
    let mut sums = [[(0.0, 0usize); VARIANTS.len()]; 6];
    for (at, row) in ROWS.iter().enumerate().filter(|(_, row)| only.is_none_or(|name| row.name == name)) {
        for (i, ratio) in cut_row(at, row, &chosen, limit).into_iter().enumerate() {
            if let Some(ratio) = ratio {
                sums[row.k][i].0 += ratio.ln();
                sums[row.k][i].1 += 1;
            }
        }
    }
    println!("\nGeometric means of the ratios, over the runs within the limit:\n");
    print!("| k |");
    chosen.iter().skip(1).for_each(|&i| print!(" {} |", VARIANTS[i].head()));
    println!("\n|---|{}", "---|".repeat(chosen.len() - 1));
    for (k, sums) in sums.iter().enumerate().skip(1) {
        print!("| {k} |");
        for &(sum, count) in &sums[1..chosen.len()] {
            match count {
                0 => print!(" |"),
                _ => print!(" {:.2} ({count}) |", (sum / count as f64).exp()),
            }
        }
        println!();
    }
}

/// The medians of the times of two pieces of work and of their ratio, in turns: one round to warm up, then nine, or as many as three seconds allow, but three.
fn against(first: impl Fn() -> usize, mut second: impl FnMut() -> usize) -> (f64, f64, f64) {
    let mut round = || (clock::timed(&first).1, clock::timed(&mut second).1);
    let (a, b) = round();
    let rounds: Vec<(f64, f64)> = (0..((3000.0 / (a + b)) as usize).clamp(3, 9)).map(|_| round()).collect();
    let median_of = |value: fn(&(f64, f64)) -> f64| median(rounds.iter().map(value).collect());
    (median_of(|r| r.0), median_of(|r| r.1), median_of(|r| r.1 / r.0))
}

/// Listing into enough slots, against counting.
fn placing() {
    println!("\n## Placing\n");
    println!("| graph | k | q | m | slots | counting, ms | listing, ms | ratio |\n|---|---|---|---|---|---|---|---|");
    let cases: [(&str, Vec<u64>, usize, usize); 7] = [
        ("johnson8-2-4", instances::johnson8_2_4(), 2, 4),
        ("random 0.3", instances::random(64, 0.3, 1), 2, 3),
        ("random 0.5", instances::random(64, 0.5, 1), 2, 3),
        ("MANN_a9", instances::mann_a9(), 2, 25),
        ("hamming6-4", instances::hamming6(4), 3, 6),
        ("random 0.8", instances::random(64, 0.8, 1), 1, 1),
        ("random 0.9", instances::random(64, 0.9, 1), 1, 11),
    ];
    for (name, rows, k, q) in cases {
        let count = || kadvisk::count(&rows, k, q, 0).expect("a valid graph");
        let m = count();
        // the program's 4,096 slots, and enough of them
        for room in [4096, m] {
            if room == 4096 && m <= 4096 {
                continue;
            }
            let mut slots = vec![0; room];
            let (counting, listing, ratio) = against(count, || kadvisk::list(&rows, k, q, 0, &mut slots).is_ok() as usize);
            println!("| {name} | {k} | {q} | {m} | {room} | {counting:.2} | {listing:.2} | {ratio:.2} |");
        }
    }
}

/// The time as n grows, at the lowest floor and at one near the largest plex.
fn growth() {
    println!("\n## Growth with n\n");
    println!("| graph | k | q | n = 16 | 24 | 32 | 40 | 48 | 56 | 64 |\n|---|---|---|---|---|---|---|---|---|---|");
    for (p, k, q) in [(0.3, 1, 1), (0.3, 2, 3), (0.3, 3, 7), (0.5, 1, 1), (0.5, 2, 6), (0.5, 3, 10), (0.7, 2, 12), (0.7, 3, 15), (0.8, 2, 17)] {
        print!("| random {p} | {k} | {q} |");
        for n in (16..=64).step_by(8) {
            let rows = instances::random(n, p, 1);
            let (m, time) = measure(|| kadvisk::count(&rows, k, q, 0).expect("a valid graph"));
            print!(" {time:.3} ms, m = {m} |");
        }
        println!();
    }
}

fn main() {
    let arguments: Vec<String> = std::env::args().skip(1).collect();
    let after = |name: &str| arguments.iter().position(|a| a == name).and_then(|at| arguments.get(at + 1)).map(String::as_str);
    let row_named = |name| after(name).map(|row| &ROWS[row.parse::<usize>().expect("a row")]);
    let variants = || arguments[2].split(',').map(|i| i.parse().expect("a variant")).collect::<Vec<usize>>();
    if let Some(row) = row_named("--count") {
        println!("{}", VARIANTS[variants()[0]].count(&(row.graph)(), row.k, row.q));
        return;
    }
    if let Some(row) = row_named("--turns") {
        let (time, ratios) = in_turns(row, &variants());
        println!("{time} {}", ratios.iter().map(f64::to_string).collect::<Vec<_>>().join(" "));
        return;
    }
    if after("--wide").is_some() {
        wide::one(arguments[1].parse().expect("a graph"), arguments[2].parse().expect("a slack"));
        return;
    }
    if arguments.first().is_some_and(|first| first.starts_with("--largest")) {
        largest::one(&arguments);
        return;
    }
    if let Some(row) = after("--changes") {
        changes::one(row.parse().expect("a row"));
        return;
    }
    if arguments.first().is_some_and(|first| first.starts_with("--silent")) {
        silent::one(&arguments);
        return;
    }
    let limit = Duration::from_secs(after("--limit").map_or(3, |s| s.parse().expect("seconds")));
    let part = |name| after("--part").is_none_or(|part| part == name);
    if part("cuts") {
        cuts(after("--only"), arguments.iter().any(|a| a == "--rivals"), limit);
    }
    if part("placing") && after("--only").is_none() {
        placing();
    }
    if part("growth") && after("--only").is_none() {
        growth();
    }
    if part("largest") {
        largest::all(after("--only"), limit);
    }
    if part("changes") {
        changes::all(after("--only"), limit);
    }
    if part("silent") {
        silent::all(after("--only"), limit);
    }
    if part("cores") && after("--only").is_none() {
        cores::all();
    }
    if part("bounds") && after("--only").is_none() {
        bounds::all();
    }
    if part("dimacs") && after("--only").is_none() {
        dimacs::all();
    }
    if after("--part") == Some("wide") {
        wide::all();
    }
}
