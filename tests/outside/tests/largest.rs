//! The largest k-plex that holds forced vertices: against trying all sets up to 14 vertices, and against 003's algorithm up to 64; beside the list; refusals.
use kadvisk::Largest;
use outside::calls::{is_maximal, largest, refused, success};
use outside::cases::{all_graphs, faulty_rows, first_of, graph, grown_plex, many, subset};
use outside::instances::{self, Rng};
use outside::largest::{by_all_sets, plain};
use outside::plain::{full, looseness, members};
use outside::refusals::MOST_SLACK;

/// Holds both calls to what is wanted, and the answer to what it means: a maximal k-plex that holds the forced vertices.
fn hold(rows: &[u64], k: usize, forced: u64, (size, mask): (usize, u64)) {
    let said = format!("{rows:X?} k={k} forced={forced:X}");
    assert_eq!(largest(rows, k, forced), success(size, mask), "{said}");
    assert_eq!(kadvisk::largest(rows, k, forced), Ok(Largest { size, mask }), "{said}");
    assert_eq!((mask & forced, members(mask).len()), (forced, size), "{said}");
    assert_eq!(is_maximal(rows, k, mask), success(0, 1), "{said}");
    assert!(size >= k.min(rows.len()), "so many vertices are a k-plex: {said}");
}

/// The same for any forced set of a graph of few vertices, one that is no k-plex included, by trying all sets.
fn hold_by_all_sets(rows: &[u64], k: usize, forced: u64) {
    if looseness(rows, forced) <= k {
        hold(rows, k, forced, by_all_sets(rows, k, forced));
    } else {
        assert_eq!(largest(rows, k, forced), refused((11, 0)), "{rows:X?} k={k} forced={forced:X}");
    }
}

/// Every slack and every set of vertices forced. How many cases there are.
fn hold_every(rows: &[u64]) -> usize {
    let n = rows.len();
    for k in 1..=MOST_SLACK {
        (0..1u64 << n).for_each(|forced| hold_by_all_sets(rows, k, forced));
    }
    MOST_SLACK << n
}

/// A k-plex to force: none, one vertex, or some more.
fn some_forced(rng: &mut Rng, rows: &[u64], k: usize) -> u64 {
    match rng.below(4) {
        0 => 0,
        1 => 1 << rng.below(rows.len()),
        2 => grown_plex(rng, rows, k) & subset(rng, rows.len()),
        _ => grown_plex(rng, rows, k),
    }
}

/// A graph of up to 64 vertices, and a slack at which the plain search is quick.
fn larger_case(rng: &mut Rng) -> (Vec<u64>, usize) {
    let (n, k, seed) = (rng.between(15, 64), rng.between(1, 5), rng.word());
    let p = [0.85, 0.6, 0.4, 0.25, 0.15][k - 1] * rng.unit();
    let rows = match rng.below(3) {
        0 => instances::planted(n, p / 2.0, 3, 10, 0.9, seed),
        1 => instances::communities(n, rng.between(4, 14), 0.85, p / 8.0, seed),
        _ => instances::random(n, p, seed),
    };
    (rows, k)
}

#[test]
fn every_forced_set_of_every_graph_of_up_to_five_vertices() {
    let cases: usize = (1..=5).flat_map(all_graphs).map(|rows| hold_every(&rows)).sum();
    println!("{cases} forced sets of every graph of up to 5 vertices against trying all sets");
}

#[test]
fn every_forced_set_of_random_graphs_of_up_to_seven_vertices() {
    let mut rng = Rng(67);
    let cases: usize = (0..many(300)).map(|_| hold_every(&graph(&mut rng, 6, 7))).sum();
    println!("{cases} forced sets of graphs of 6 and 7 vertices against trying all sets");
}

#[test]
fn random_graphs_of_up_to_14_vertices() {
    let mut rng = Rng(14);
    let cases = many(4000);
    for case in 0..cases {
        let rows = if case % 10 == 0 { graph(&mut rng, 12, 14) } else { graph(&mut rng, 1, 11) };
        let k = rng.between(1, MOST_SLACK);
        let forced = if rng.chance(0.2) { subset(&mut rng, rows.len()) } else { some_forced(&mut rng, &rows, k) };
        hold_by_all_sets(&rows, k, forced);
    }
    println!("{cases} graphs of up to 14 vertices against trying all sets");
}

#[test]
fn graphs_that_fall_apart() {
    // parts without an edge between them, single vertices among them; below 2k - 1 members a largest k-plex may lie in several
    let (mut rng, mut spread) = (Rng(3), 0);
    for case in 0..many(1500) {
        let n = if case % 10 == 0 { rng.between(11, 13) } else { rng.between(2, 10) };
        let (part, inside, seed) = (rng.between(1, n.div_ceil(2)), rng.unit(), rng.word());
        let rows = instances::communities(n, part, inside, 0.0, seed);
        let k = rng.between(1, MOST_SLACK);
        let forced = some_forced(&mut rng, &rows, k);
        hold_by_all_sets(&rows, k, forced);
        let mask = largest(&rows, k, forced).found;
        spread += (members(mask).iter().map(|v| v / part).max() > members(mask).iter().map(|v| v / part).min()) as usize;
    }
    println!("{spread} of the largest k-plexes lie in several parts");
    assert!(spread > 100, "only {spread} lie in several parts");
}

#[test]
fn both_plain_searches_agree() {
    let mut rng = Rng(5);
    for case in 0..many(4000) {
        let rows = if case % 20 == 0 { graph(&mut rng, 12, 14) } else { graph(&mut rng, 1, 11) };
        let k = if rng.chance(0.8) { rng.between(1, 4) } else { rng.between(1, rows.len() + 2) };
        let forced = some_forced(&mut rng, &rows, k);
        assert_eq!(plain(&rows, k, forced), by_all_sets(&rows, k, forced), "{rows:X?} k={k} forced={forced:X}");
    }
}

#[test]
fn random_graphs_of_up_to_64_vertices() {
    let (mut rng, mut sizes) = (Rng(64), [0; 65]);
    let cases = many(3000);
    for _ in 0..cases {
        let (rows, k) = larger_case(&mut rng);
        let forced = some_forced(&mut rng, &rows, k);
        let want = plain(&rows, k, forced);
        hold(&rows, k, forced, want);
        sizes[want.0] += 1;
    }
    println!("{cases} graphs of up to 64 vertices against the plain search; largest k-plexes by size: {sizes:?}");
}

#[test]
fn graphs_of_the_challenge() {
    let mut rng = Rng(9);
    for (rows, slacks) in [
        (instances::mann_a9(), vec![1, 2, 3, 5]),
        (instances::johnson8_2_4(), vec![1, 2, 3, 4, 5]),
        (instances::hamming6(2), vec![1]),
        (instances::hamming6(4), vec![1, 2, 3]),
        (instances::ring_of_cliques(64, 8), vec![1, 2, 3, 4, 5]),
        (instances::multipartite(64, 32), vec![1, 2, 3]),
        (instances::multipartite(64, 16), vec![1, 2]),
        (instances::planted(64, 0.2, 4, 14, 0.9, 1), vec![1, 2, 3, 4]),
        (instances::communities(64, 16, 0.8, 0.05, 1), vec![1, 2, 3, 4, 5]),
    ] {
        for k in slacks {
            let one = 1 << rng.below(rows.len());
            for forced in [0, one, grown_plex(&mut rng, &rows, k) & subset(&mut rng, rows.len())] {
                hold(&rows, k, forced, plain(&rows, k, forced));
            }
        }
    }
    // 003, Table 6
    for (rows, k, size) in [
        (instances::mann_a9(), 1, 16),
        (instances::mann_a9(), 2, 26),
        (instances::johnson8_2_4(), 1, 4),
        (instances::johnson8_2_4(), 2, 5),
        (instances::hamming6(2), 1, 32),
        (instances::hamming6(4), 1, 4),
        (instances::hamming6(4), 2, 6),
    ] {
        assert_eq!(largest(&rows, k, 0).value, size);
    }
}

#[test]
fn the_mask_stands_in_the_list() {
    // and of the listed k-plexes that hold the forced vertices none is larger, and none of that size is lower
    let (mut rng, mut listed) = (Rng(8), 0);
    for case in 0..many(1200) {
        let (rows, k) = if case % 2 == 0 { larger_case(&mut rng) } else { (graph(&mut rng, 1, 14), rng.between(1, 4)) };
        let forced = some_forced(&mut rng, &rows, k);
        let Largest { size, mask } = kadvisk::largest(&rows, k, forced).unwrap();
        for q in (2 * k - 1..=size).rev().take(if rows.len() > 14 { 2 } else { 64 }) {
            let list = kadvisk::list_all(&rows, k, q, 0).unwrap();
            let holding: Vec<u64> = list.into_iter().filter(|t| t & forced == forced).collect();
            assert!(holding.contains(&mask), "{rows:X?} k={k} forced={forced:X} q={q}");
            let better = |&&t: &&u64| members(t).len() > size || members(t).len() == size && t < mask;
            assert_eq!(holding.iter().find(better), None, "{rows:X?} k={k} forced={forced:X} q={q}");
            listed += 1;
        }
    }
    println!("{listed} lists that the largest k-plex stands in");
    assert!(listed > 1000);
}

#[test]
fn worked_edges() {
    let three = [0, 0, 0];
    hold(&three, 2, 0, (2, 3));
    hold(&three, 2, 4, (2, 5));
    hold(&three, 3, 0, (3, 7));
    hold(&three, 1, 4, (1, 4));
    assert_eq!(largest(&three, 1, 3), refused((11, 0)));
    hold(&[0], 1, 0, (1, 1));
    hold(&[0], 5, 1, (1, 1));
    for n in [1, 2, 5, 63, 64] {
        for k in [1, 2, 4, 5] {
            let all = (n, full(n));
            hold(&instances::complete(n), k, full(n), all);
            hold(&instances::complete(n), k, 0, all);
        }
    }
    // no edges: any k vertices are the most, and the lowest are those that are forced and the first
    for k in 1..=5 {
        hold(&[0; 64], k, 0, (k, full(k)));
        hold(&[0; 64], k, 1 << 63, (k, full(k - 1) | 1 << 63));
    }
    // all are forced, and one too many
    hold(&[0; 5], 5, full(5), (5, full(5)));
    assert_eq!(largest(&[0; 6], 5, full(6)), refused((11, 0)));
    // each vertex of MANN_a9 misses at most five, itself counted
    hold(&instances::mann_a9(), 5, full(45), (45, full(45)));
    assert_eq!(largest(&instances::mann_a9(), 4, full(45)), refused((11, 0)));
    // twelve parts of five and one of four: at slack 4 the highest vertex of each of the twelve is left out
    let fives = instances::multipartite(64, 5);
    hold(&fives, 5, 1, (64, u64::MAX));
    hold(&fives, 4, 0, (52, (0..12).fold(u64::MAX, |mask, part| mask & !(1 << (5 * part + 4)))));
}

/// An input with the chosen ones of the causes 1, 2, 4, 5, 7, 11, and the refusal that it owes. With cause 1 it has no row, or 65.
fn faulty(causes: [bool; 6], empty: bool, slack: usize) -> (Vec<u64>, usize, u64, Option<(usize, usize)>) {
    let [vertices, slack_wrong, row, one_way, outside, no_plex] = causes;
    let rows = faulty_rows([vertices, row, one_way], empty);
    let forced = if outside { 1 << 63 } else { 0 } | if no_plex { 3 } else { 0 };
    let first = first_of([(1, 0), (2, 0), (4, 3), (5, 2), (7, 0), (11, 0)], causes);
    (rows, if slack_wrong { slack } else { 1 }, forced, first)
}

#[test]
fn the_order_of_causes() {
    let mut seen = [0; 12];
    for choice in 0..64u32 {
        let causes = std::array::from_fn(|i| choice >> i & 1 == 1);
        for (empty, slack) in [(false, 0), (true, 0), (false, 6), (true, usize::MAX)] {
            let (rows, k, forced, owed) = faulty(causes, empty, slack);
            assert_eq!(owed, outside::refusals::largest(&rows, k, forced), "causes {causes:?}");
            assert_eq!(largest(&rows, k, forced), owed.map_or(success(1, 1), refused), "causes {causes:?}");
            seen[owed.map_or(0, |(number, _)| number)] += 1;
        }
    }
    println!("outcomes by number: {seen:?}");
    assert!([0, 1, 2, 4, 5, 7, 11].iter().all(|&number| seen[number] > 0));
}
