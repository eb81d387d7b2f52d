//! The list with silent vertices: every set of vertices silent in every graph of up to five; random ones against trying all sets up to 14 vertices, and up to
//! 64 against the independent list without, of which those stay that have enough members left; what is shown of the list; every setting of the cuts; sets
//! that reach n.
use outside::book::{self, Book, Change};
use outside::calls::{change, list, list_with, refused, success};
use outside::cases::{all_graphs, graph, many, silent, subset};
use outside::instances::{self, Rng};
use outside::plain::{full, recorded};
use outside::refusals::MOST_SLACK;
use outside::{brute, fp, hold};

const GARBAGE: u64 = 0x0123_4567_89AB_CDEF;

/// Those of the masks that have at least q members that are not silent.
fn loud(masks: &[u64], q: usize, silent: u64) -> Vec<u64> {
    masks.iter().copied().filter(|&s| recorded(s, silent) >= q).collect()
}

/// What silent vertices do to lists: how many masks are listed, how many of them hold a silent vertex, how many have just q members that count, and how many
/// have q or more members of which one too few counts.
#[derive(Debug, Default)]
struct Tally {
    lists: usize,
    listed: usize,
    with_silent: usize,
    just: usize,
    one_less: usize,
}

impl Tally {
    /// Counts a list, where `all` is the list without silent vertices.
    fn count(&mut self, all: &[u64], q: usize, silent: u64) {
        let with = |n: usize| all.iter().filter(|&&s| recorded(s, silent) == n).count();
        let listed = loud(all, q, silent);
        self.lists += 1;
        self.listed += listed.len();
        self.with_silent += listed.iter().filter(|&&s| s & silent != 0).count();
        self.just += with(q);
        self.one_less += with(q - 1);
    }

    /// Every kind was met so often.
    fn hold(&self, often: usize) {
        println!("{self:?}");
        assert!([self.listed, self.with_silent, self.just, self.one_less].iter().all(|&kind| kind > often), "{self:?}");
    }
}

/// A graph of up to 64 vertices, a slack and a floor, such that the list without silent vertices is short work and has members to spare.
fn larger_case(rng: &mut Rng) -> (Vec<u64>, usize, usize) {
    let (n, k, seed) = (if rng.chance(0.2) { 64 } else { rng.between(15, 64) }, rng.between(1, MOST_SLACK), rng.word());
    let p = [0.6, 0.45, 0.3, 0.2, 0.13][k - 1] * rng.unit();
    let rows = match rng.below(4) {
        0 => instances::planted(n, p / 2.0, 2, 8 + k, 0.9, seed),
        1 => instances::communities(n, rng.between(5, 7 + k), 0.85, p / 8.0, seed),
        2 => instances::random(n, p / 2.0, seed),
        _ => instances::random(n, p, seed),
    };
    (rows, k, 2 * k - 1 + rng.below(4))
}

#[test]
fn every_set_silent_in_every_graph_of_up_to_five_vertices() {
    let mut tally = Tally::default();
    for rows in (1..=5).flat_map(all_graphs) {
        let n = rows.len();
        for k in 1..=MOST_SLACK {
            for q in 2 * k - 1..=n.max(2 * k - 1) + 1 {
                let all = brute::list(&rows, k, q, 0);
                for silent in 0..1u64 << n {
                    hold::list(&rows, k, q, silent, &loud(&all, q, silent));
                    tally.count(&all, q, silent);
                }
            }
        }
    }
    tally.hold(1000);
}

#[test]
fn every_set_silent_in_random_graphs_of_six_to_eight_vertices() {
    let (mut rng, mut tally) = (Rng(8), Tally::default());
    for _ in 0..many(100) {
        let (rows, k) = (graph(&mut rng, 6, 8), rng.between(1, 4));
        let q = 2 * k - 1 + rng.below(3);
        let all = brute::list(&rows, k, q, 0);
        for silent in 0..1u64 << rows.len() {
            hold::list(&rows, k, q, silent, &loud(&all, q, silent));
            tally.count(&all, q, silent);
        }
    }
    tally.hold(1000);
}

#[test]
fn random_graphs_of_up_to_14_vertices() {
    let (mut rng, mut tally) = (Rng(14), Tally::default());
    for case in 0..many(5000) {
        let rows = if case % 20 == 0 { graph(&mut rng, 12, 14) } else { graph(&mut rng, 1, 11) };
        let k = rng.between(1, MOST_SLACK);
        let (q, silent) = (2 * k - 1 + rng.below(4), silent(&mut rng, rows.len()));
        hold::list(&rows, k, q, silent, &brute::list(&rows, k, q, silent));
        tally.count(&brute::list(&rows, k, q, 0), q, silent);
    }
    tally.hold(1000);
}

#[test]
fn both_plain_lists_agree() {
    let mut rng = Rng(3);
    for case in 0..many(2000) {
        let rows = if case % 20 == 0 { graph(&mut rng, 12, 14) } else { graph(&mut rng, 1, 11) };
        let k = rng.between(1, MOST_SLACK);
        let (q, silent) = (2 * k - 1 + rng.below(4), silent(&mut rng, rows.len()));
        assert_eq!(book::list(&rows, k, q, silent), brute::list(&rows, k, q, silent), "{rows:X?} k={k} q={q} silent={silent:X}");
    }
}

#[test]
fn random_graphs_of_up_to_64_vertices() {
    let (mut rng, mut tally) = (Rng(64), Tally::default());
    for _ in 0..many(1000) {
        let (rows, k, q) = larger_case(&mut rng);
        let all = book::list(&rows, k, q, 0);
        for silent in [silent(&mut rng, rows.len()), subset(&mut rng, rows.len()), rng.word() & full(rows.len())] {
            hold::list(&rows, k, q, silent, &loud(&all, q, silent));
            tally.count(&all, q, silent);
        }
    }
    tally.hold(10_000);
}

#[test]
fn dense_graphs_with_high_floors() {
    // the floor is near what the largest k-plexes have left when half of all vertices are silent
    let (mut rng, mut tally) = (Rng(65), Tally::default());
    for _ in 0..many(120) {
        let (n, k) = (rng.between(24, 40), rng.between(1, 3));
        let rows = instances::random(n, 0.4 + 0.25 * rng.unit(), rng.word());
        let silent = rng.word() & full(n);
        let largest = kadvisk::largest(&rows, k, 0).unwrap().size;
        let q = (2 * k - 1).max((largest * 2).div_ceil(3));
        let all = book::list(&rows, k, q, 0);
        hold::list(&rows, k, q, silent, &loud(&all, q, silent));
        tally.count(&all, q, silent);
    }
    tally.hold(50);
}

#[test]
fn graphs_of_the_challenge() {
    let mut rng = Rng(9);
    for (rows, k, q) in [
        (instances::johnson8_2_4(), 1, 2),
        (instances::johnson8_2_4(), 2, 3),
        (instances::johnson8_2_4(), 3, 5),
        (instances::hamming6(4), 1, 2),
        (instances::hamming6(4), 2, 3),
        (instances::hamming6(2), 1, 18),
        (instances::mann_a9(), 1, 9),
        (instances::mann_a9(), 2, 25),
        (instances::mann_a9(), 5, 20),
        (instances::ring_of_cliques(64, 8), 2, 3),
        (instances::ring_of_cliques(64, 8), 4, 7),
        (instances::multipartite(64, 32), 2, 3),
    ] {
        let all = book::list(&rows, k, q, 0);
        let half = rng.word() & full(rows.len());
        for silent in [half, !half & full(rows.len()), 1 << rng.below(rows.len()), 0x1111_1111_1111_1111 & full(rows.len())] {
            let want = loud(&all, q, silent);
            println!("n={} k={k} q={q} silent={silent:016X}: {} of {}", rows.len(), want.len(), all.len());
            hold::list(&rows, k, q, silent, &want);
        }
    }
}

#[test]
fn long_lists_are_counted_and_stored() {
    let mut rng = Rng(10);
    for (rows, k, q) in [
        (instances::random(64, 0.8, 1), 1, 9),
        (instances::mann_a9(), 1, 11),
        (instances::multipartite(64, 16), 1, 3),
        (instances::random(64, 0.5, 1), 2, 5),
        (instances::random(64, 0.3, 1), 3, 5),
    ] {
        let (all, silent) = (book::list(&rows, k, q, 0), (0..rows.len()).filter(|_| rng.chance(0.15)).map(|v| 1 << v).sum());
        let want = loud(&all, q, silent);
        println!("k={k} q={q} silent={silent:016X}: {} of {}", want.len(), all.len());
        assert!(want.len() > 4096 && want.len() < all.len());
        hold::list(&rows, k, q, silent, &want);
    }
}

#[test]
fn what_is_shown_of_the_list() {
    let (mut rng, mut parts, mut fewer) = (Rng(12), 0, 0);
    for case in 0..many(1500) {
        let (rows, k, q) = if case % 2 == 0 { larger_case(&mut rng) } else { (graph(&mut rng, 1, 16), 2, 3 + rng.below(3)) };
        let n = rows.len();
        let listed = |q: usize, silent: u64| kadvisk::list_all(&rows, k, q, silent).unwrap();
        let (silent, more) = (silent(&mut rng, n), silent(&mut rng, n));
        let (all, part, less) = (listed(q, 0), listed(q, silent), listed(q, silent | more));
        // no vertex silent: the list as it was
        assert_eq!(all, fp::list(&rows, k, q), "{rows:X?} k={k} q={q}");
        // any: a part of it, and of more silent vertices a part of that
        let within = |masks: &[u64], of: &[u64]| masks.iter().all(|s| of.binary_search(s).is_ok());
        assert!(within(&part, &all) && within(&less, &part), "{rows:X?} k={k} q={q} silent={silent:X} and {more:X}");
        // a floor above the number of the others: none, into no slots
        let above = (n + 1 - silent.count_ones() as usize).max(2 * k - 1);
        assert!(above > 64 || list(&rows, k, above, silent, &mut []) == success(0, 0), "{rows:X?} k={k} q={above} silent={silent:X}");
        assert_eq!(list(&rows, k, q, full(n), &mut []), success(0, 0), "all are silent");
        // what has as many members more as there are silent ones is listed
        let high = q + silent.count_ones() as usize;
        assert!(high > 64 || within(&listed(high, 0), &part), "{rows:X?} k={k} q={q} silent={silent:X}");
        // a silent vertex that no listed k-plex holds does nothing
        let held = all.iter().fold(0, |held, s| held | s);
        assert_eq!(listed(q, silent & held), part, "{rows:X?} k={k} q={q} silent={silent:X}");
        parts += part.len();
        fewer += (!part.is_empty() && part.len() < all.len()) as usize;
    }
    println!("{parts} masks listed; {fewer} lists that are shorter with silent vertices, and not empty");
    assert!(parts > 10_000 && fewer > 200);
}

#[test]
fn every_setting_of_the_cuts_gives_the_same_list() {
    let (mut rng, mut tally) = (Rng(6), Tally::default());
    for case in 0..many(400) {
        let large = case % 5 == 0;
        let (rows, k, q) = match large {
            true => larger_case(&mut rng),
            false => {
                let k = rng.between(1, 4);
                (graph(&mut rng, 1, 12), k, 2 * k - 1 + rng.below(3))
            }
        };
        let (all, silent) = (if large { book::list(&rows, k, q, 0) } else { brute::list(&rows, k, q, 0) }, silent(&mut rng, rows.len()));
        // without cuts a search among many vertices is long
        if all.len() > 500 || large && (k > 2 || rows.len() > 24) {
            continue;
        }
        let want = loud(&all, q, silent);
        (0..128).chain([u64::MAX, !127]).for_each(|flags| hold::list_with(&rows, k, q, silent, flags, &want));
        tally.count(&all, q, silent);
    }
    tally.hold(100);
}

#[test]
fn every_setting_of_the_cuts_in_every_graph_of_up_to_four_vertices() {
    for rows in (1..=4).flat_map(all_graphs) {
        for (k, q) in [(1, 1), (1, 2), (1, 3), (2, 3), (2, 4), (3, 5)] {
            for silent in 0..1u64 << rows.len() {
                let want = brute::list(&rows, k, q, silent);
                (0..128).for_each(|flags| hold::list_with(&rows, k, q, silent, flags, &want));
            }
        }
    }
}

#[test]
fn the_slots_decide_nothing() {
    let mut rng = Rng(11);
    for _ in 0..many(1500) {
        let (rows, k) = (graph(&mut rng, 1, 20), rng.between(1, 3));
        let (q, silent) = (2 * k - 1 + rng.below(4), silent(&mut rng, rows.len()));
        let all = book::list(&rows, k, q, 0);
        if all.len() > 3000 {
            continue;
        }
        // masks that are listed where no vertex is silent among them
        let garbage: Vec<u64> =
            (0..all.len() + 5).map(|_| if rng.chance(0.5) { rng.word() } else { all.get(rng.below(all.len() + 1)).copied().unwrap_or(0) }).collect();
        let (mut slots, want) = (garbage.clone(), loud(&all, q, silent));
        assert_eq!(list(&rows, k, q, silent, &mut slots), success(want.len(), 0));
        assert_eq!(slots, [&want[..], &garbage[want.len()..]].concat());
    }
}

/// Holds the list, the list with cuts and a change to refusal 7 of the silent vertices, where they reach n, and to the list else. Refused, nothing is touched.
fn hold_edge(rows: &[u64], k: usize, q: usize, silent: u64) {
    let n = rows.len();
    if silent & !full(n) == 0 {
        let all = book::list(rows, k, q, 0);
        hold::list(rows, k, q, silent, &loud(&all, q, silent));
        hold::list_with(rows, k, q, silent, 127, &loud(&all, q, silent));
    } else {
        let mut slots = [GARBAGE; 3];
        for call in [list(rows, k, q, silent, &mut slots), list_with(rows, k, q, silent, 127, &mut slots), list(rows, k, q, silent, &mut [])] {
            assert_eq!(call, refused((7, 0)), "n={n} silent={silent:X}");
        }
        let mut other = rows.to_vec();
        assert_eq!(change(&mut other, k, q, silent, 0, n - 1, true, &mut slots), refused((7, 0)), "n={n} silent={silent:X}");
        assert_eq!((&other[..], slots), (rows, [GARBAGE; 3]));
    }
}

#[test]
fn silent_vertices_up_to_the_last_and_beyond() {
    for n in 1..=64 {
        let rows = instances::random(n, 0.3, n as u64);
        // each vertex by itself, and each number beyond; all below n, and all
        let masks = (0..64).map(|v| 1u64 << v).chain([full(n), full(n) & !1, u64::MAX, u64::MAX << (n - 1), u64::MAX << 32]);
        masks.for_each(|silent| hold_edge(&rows, 1, 2, silent));
        [1 << (n - 1), 1 << (n % 64), u64::MAX].into_iter().for_each(|silent| hold_edge(&rows, 2, 3, silent));
    }
}

#[test]
fn changes_of_books_of_64_vertices() {
    // each change against listing afresh; between them silent vertices come and go
    let (mut rng, mut listed) = (Rng(13), 0);
    for _ in 0..many(200) {
        let k = rng.between(1, 3);
        let rows = instances::random(64, [0.4, 0.25, 0.12][k - 1] * rng.unit(), rng.word());
        let silent = subset(&mut rng, 64) & rng.word();
        let mut book = Book { rows, slack: k, floor: 2 * k - 1, silent, slots: vec![GARBAGE; 10_000] };
        for _ in 0..4 {
            let change = Change::of(&book.rows, rng.below(63), 63);
            let (outcome, after) = book.owed(change, book::list);
            assert_eq!(outcome.number, 0);
            assert!(book.change(change) == outcome && book == after, "{change:?} k={k} silent={:X}", book.silent);
            // the book's list is the list of its graph
            let afresh = kadvisk::list_all(&book.rows, k, book.floor, book.silent).unwrap();
            assert!(afresh == book.slots[..outcome.value], "{change:?} k={k} silent={:X}", book.silent);
            listed += afresh.len();
            book.silent ^= 1 << rng.below(64);
        }
    }
    println!("{listed} masks in the lists of changed books");
    assert!(listed > 10_000);
}

#[test]
fn worked_edges() {
    let ring = [0x12, 0x05, 0x0A, 0x14, 0x09];
    hold::list(&ring, 2, 3, 0x08, &[0x07, 0x13]);
    hold::list(&ring, 2, 3, 0x01, &[0x0E, 0x1C]);
    hold::list(&ring, 2, 3, 0x05, &[]);
    // an edge whose one end is silent, and a vertex that is silent
    hold::list(&ring, 1, 1, 0x05, &[0x03, 0x06, 0x0C, 0x11, 0x18]);
    hold::list(&ring, 1, 2, 0x05, &[0x18]);
    hold::list(&[0, 0, 0], 1, 1, 0x2, &[1, 4]);
    hold::list(&[0], 1, 1, 1, &[]);
    // a square: three of its four vertices count
    let square = [0xA, 0x5, 0xA, 0x5];
    hold::list(&square, 2, 3, 0x4, &[0xF]);
    hold::list(&square, 2, 4, 0x4, &[]);
    // silent vertices hold a k-plex together: without 0 the others would be three single vertices, and no set of them is listed by itself
    hold::list(&instances::star(4), 1, 1, 0x1, &[0x3, 0x5, 0x9]);
    hold::list(&instances::star(4), 1, 1, 0xE, &[0x3, 0x5, 0x9]);
    // a silent vertex makes a set grow, and what it lies in is listed
    hold::list(&instances::complete(5), 1, 4, 0x10, &[0x1F]);
    // the floor is reached by the vertices that are not silent alone
    for silent in [1, 1 << 63, 0xFFFF, u64::MAX << 40, 0x5555_5555_5555_5555] {
        let left = 64 - silent.count_ones() as usize;
        for k in 1..=MOST_SLACK {
            hold::list(&instances::complete(64), k, left, silent, &[u64::MAX]);
            hold::list(&instances::complete(64), k, left + 1, silent, &[]);
        }
    }
    hold::list(&instances::complete(64), 1, 1, u64::MAX, &[]);
    hold::list(&instances::complete(64), 1, 1, u64::MAX >> 1, &[u64::MAX]);
}
