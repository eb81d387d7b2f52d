//! The list without silent vertices: against trying all sets up to 16 vertices, and against the published algorithm up to 64; every setting of the cuts; what
//! the slots hold.
use outside::calls::{list, refused, success};
use outside::cases::{all_graphs, graph, many};
use outside::instances::{self, Rng};
use outside::{brute, cliques, fp, hold};

const GARBAGE: u64 = 0xDEAD_BEEF_0BAD_F00D;

/// Holds the call to the list that is wanted, where no vertex is silent.
fn hold(rows: &[u64], k: usize, q: usize, want: &[u64]) {
    hold::list(rows, k, q, 0, want);
}

#[test]
fn every_graph_of_up_to_five_vertices() {
    let mut cases = 0;
    for n in 1..=5 {
        for rows in all_graphs(n) {
            for k in 1..=5 {
                for q in 2 * k - 1..=n.max(2 * k - 1) + 1 {
                    hold(&rows, k, q, &brute::list(&rows, k, q, 0));
                    cases += 1;
                }
            }
        }
    }
    println!("{cases} lists of every graph of up to 5 vertices against trying all sets");
}

#[test]
fn random_graphs_of_up_to_16_vertices() {
    let mut rng = Rng(16);
    let mut plexes = 0;
    let cases = many(10_000);
    for case in 0..cases {
        let rows = if case % 25 == 0 { graph(&mut rng, 13, 16) } else { graph(&mut rng, 1, 12) };
        let k = if rng.chance(0.85) { rng.between(1, 3) } else { rng.between(4, 5) };
        let q = (2 * k - 1 + rng.below(4)).min(64);
        let want = brute::list(&rows, k, q, 0);
        plexes += want.len();
        hold(&rows, k, q, &want);
    }
    println!("{cases} lists of up to 16 vertices against trying all sets, {plexes} plexes");
}

#[test]
fn random_graphs_of_up_to_64_vertices() {
    let mut rng = Rng(64);
    let mut plexes = 0;
    let cases = many(300);
    for _ in 0..cases {
        let (n, p, k) = (rng.between(17, 64), 0.05 + 0.75 * rng.unit(), rng.between(1, 5));
        // a floor near the largest plex, so that lists stay short
        let q = (2 * k - 1).max((p * p * 0.5 * n as f64) as usize + 2 * k + rng.below(3)).min(64);
        let seed = rng.word();
        let rows = match rng.below(3) {
            0 => instances::planted(n, p / 2.0, 3, 10, 0.9, seed),
            1 => instances::communities(n, rng.between(4, 16), 0.8, p / 8.0, seed),
            _ => instances::random(n, p, seed),
        };
        let want = fp::list(&rows, k, q);
        plexes += want.len();
        hold(&rows, k, q, &want);
    }
    println!("{cases} lists of up to 64 vertices against the published algorithm, {plexes} plexes");
}

#[test]
fn low_floors_of_up_to_64_vertices() {
    let mut rng = Rng(4);
    let mut plexes = 0;
    let cases = many(400);
    for _ in 0..cases {
        let (n, k, seed) = (rng.between(17, 64), rng.between(1, 3), rng.word());
        let rows = instances::random(n, [0.3, 0.2, 0.1][k - 1] * rng.unit(), seed);
        let want = fp::list(&rows, k, 2 * k - 1);
        plexes += want.len();
        hold(&rows, k, 2 * k - 1, &want);
    }
    println!("{cases} lists at the lowest floor against the published algorithm, {plexes} plexes");
}

#[test]
fn cliques_of_up_to_64_vertices() {
    let mut rng = Rng(1);
    for _ in 0..many(400) {
        let (n, p, seed) = (rng.between(17, 64), 0.7 * rng.unit(), rng.word());
        let rows = instances::random(n, p, seed);
        let mut want = vec![];
        cliques::run(&rows, 3, &mut |t| want.push(t));
        want.sort_unstable();
        hold(&rows, 1, 3, &want);
    }
}

#[test]
fn every_setting_of_the_cuts_gives_the_same_list() {
    let mut rng = Rng(6);
    for case in 0..many(600) {
        let (rows, k) = if case % 4 == 0 { (graph(&mut rng, 30, 64), rng.between(1, 2)) } else { (graph(&mut rng, 1, 12), rng.between(1, 4)) };
        let q = if case % 4 == 0 { (rows.len() / 2).max(2 * k - 1) } else { 2 * k - 1 + rng.below(3) };
        let want = if case % 4 == 0 { fp::list(&rows, k, q) } else { brute::list(&rows, k, q, 0) };
        if want.len() > 2000 {
            continue;
        }
        (0..128).for_each(|flags| hold::list_with(&rows, k, q, 0, flags, &want));
    }
}

#[test]
fn graphs_of_the_challenge() {
    for (rows, k, q) in [
        (instances::johnson8_2_4(), 2, 4),
        (instances::johnson8_2_4(), 3, 6),
        (instances::hamming6(4), 2, 4),
        (instances::hamming6(4), 5, 11),
        (instances::mann_a9(), 3, 32),
        (instances::mann_a9(), 2, 26),
        (instances::ring_of_cliques(64, 8), 2, 3),
        (instances::ring_of_cliques(64, 8), 4, 7),
    ] {
        hold(&rows, k, q, &fp::list(&rows, k, q));
    }
    // each vertex of MANN_a9 misses at most five, itself counted
    hold(&instances::mann_a9(), 5, 45, &[(1 << 45) - 1]);
    assert_eq!(list(&instances::hamming6(2), 1, 33, 0, &mut []), success(0, 0));
}

#[test]
fn long_lists_are_counted_exactly() {
    let mann = instances::mann_a9();
    let mut some = vec![GARBAGE; 4096];
    assert_eq!(list(&mann, 1, 11, 0, &mut some), refused((6, 590_886)));
    assert!(some.iter().all(|&slot| slot == 0));
    let mut m = 0;
    fp::run(&instances::hamming6(4), 3, 5, &mut |_| m += 1);
    assert_eq!(list(&instances::hamming6(4), 3, 5, 0, &mut []), refused((6, m)));
    let half = instances::random(64, 0.5, 1);
    hold(&half, 2, 8, &fp::list(&half, 2, 8));
}

#[test]
fn long_lists_are_stored_in_order() {
    for (rows, q) in [(instances::random(64, 0.8, 1), 1), (instances::mann_a9(), 11), (instances::multipartite(64, 16), 1)] {
        let mut want = vec![];
        cliques::run(&rows, q, &mut |t| want.push(t));
        want.sort_unstable();
        println!("{} cliques stored in order", want.len());
        hold(&rows, 1, q, &want);
    }
}

#[test]
fn the_largest_slack() {
    let complete = instances::complete(64);
    hold(&complete, 1, 64, &[u64::MAX]);
    hold(&complete, 5, 9, &[u64::MAX]);
    hold(&complete, 5, 64, &[u64::MAX]);
    // twelve parts of five and one of four: all are a 5-plex
    hold(&instances::multipartite(64, 5), 5, 9, &[u64::MAX]);
    // two parts of six, and every other edge: one vertex of each part is left out
    let mut sixes = complete.clone();
    (0..12).for_each(|v| sixes[v] &= !(0x3F << (6 * (v / 6))));
    let mut want: Vec<u64> = (0..6).flat_map(|a| (6..12).map(move |b| !(1 << a | 1 << b))).collect();
    want.sort_unstable();
    hold(&sixes, 5, 9, &want);
    hold(&sixes, 5, 62, &want);
    hold(&sixes, 5, 63, &[]);
    // graphs whose vertices miss about seven
    let (mut rng, mut plexes) = (Rng(32), 0);
    for _ in 0..many(300) {
        let rows = instances::random(rng.between(9, 64), 1.0 - 7.0 / 64.0, rng.word());
        let q = rng.between(rows.len() - 6, 64).max(9);
        let want = fp::list(&rows, 5, q);
        plexes += want.len();
        hold(&rows, 5, q, &want);
    }
    println!("dense graphs at slack 5: {plexes} plexes");
    assert!(plexes > 1000);
}

#[test]
fn worked_edges() {
    let ring = [0x12, 0x05, 0x0A, 0x14, 0x09];
    hold(&ring, 2, 3, &[0x07, 0x0E, 0x13, 0x19, 0x1C]);
    let square = [0xA, 0x5, 0xA, 0x5];
    hold(&square, 2, 4, &[0xF]);
    hold(&square, 1, 2, &[0x3, 0x6, 0x9, 0xC]);
    hold(&[0, 0, 0], 1, 1, &[1, 2, 4]);
    hold(&[0, 0, 0], 2, 3, &[]);
    hold(&[0], 1, 1, &[1]);
    hold(&[0], 1, 2, &[]);
    // a floor above n
    hold(&ring, 1, 6, &[]);
    hold(&ring, 5, 64, &[]);
}

#[test]
fn the_slots_decide_nothing() {
    let mut rng = Rng(9);
    for _ in 0..many(3000) {
        let (rows, k) = (graph(&mut rng, 1, 20), rng.between(1, 3));
        let q = 2 * k - 1 + rng.below(6);
        let want = kadvisk::list_all(&rows, k, q, 0).unwrap();
        if want.len() > 3000 {
            continue;
        }
        let garbage: Vec<u64> =
            (0..want.len() + 5).map(|_| if rng.chance(0.5) { rng.word() } else { want.get(rng.below(want.len() + 1)).copied().unwrap_or(0) }).collect();
        let mut slots = garbage.clone();
        assert_eq!(list(&rows, k, q, 0, &mut slots), success(want.len(), 0));
        assert_eq!(slots[..want.len()], want);
        assert_eq!(slots[want.len()..], garbage[want.len()..]);
        assert!(want.windows(2).all(|pair| pair[0] < pair[1]), "rising, each once");
    }
}
