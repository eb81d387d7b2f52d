//! How loose a set is, whether it is maximal, and the reach, against their definitions.
use outside::calls::{first_bound, is_maximal, largest, looseness, reach, refused, success};
use outside::cases::{all_graphs, graph, grown_plex, many, subset};
use outside::instances::{self, Rng};
use outside::plain;
use outside::refusals::MOST_SLACK;

fn yes_no(b: bool) -> kadvisk::ffi::Outcome {
    success(0, b as u64)
}

/// Holds both calls to the most that a member misses and to the least slack by Definition 1, and gives it.
fn hold_looseness(rows: &[u64], s: u64) -> usize {
    let (loose, least) = (plain::looseness(rows, s), (0..=64).find(|&k| plain::is_plex(rows, k, s)));
    assert_eq!((looseness(rows, s), kadvisk::looseness(rows, s), least), (success(0, loose as u64), Ok(loose), Some(loose)), "{rows:X?} s={s:X}");
    assert!(loose <= plain::members(s).len() && (loose == 0) == (s == 0), "{rows:X?} s={s:X}");
    loose
}

#[test]
fn how_loose_every_set_of_every_graph_of_up_to_six_vertices_is() {
    let sets = |rows: Vec<u64>| (0..1u64 << rows.len()).map(|s| hold_looseness(&rows, s)).collect::<Vec<_>>();
    let mut by_number = [0; 7];
    (1..=6).flat_map(all_graphs).flat_map(sets).for_each(|loose| by_number[loose] += 1);
    println!("sets of every graph of up to 6 vertices by looseness: {by_number:?}");
    assert!(by_number.iter().all(|&sets| sets > 0));
}

#[test]
fn how_loose_random_sets_of_up_to_64_vertices_are() {
    // of any density, and few edges in every second graph; a larger set is no less loose
    let (mut rng, mut above) = (Rng(22), [0; 2]);
    let cases = many(20_000);
    for case in 0..cases {
        let rows = if case % 2 == 0 { graph(&mut rng, 1, 64) } else { instances::random(rng.between(1, 64), 0.3 * rng.unit(), rng.word()) };
        let s = subset(&mut rng, rows.len());
        let (loose, larger) = (hold_looseness(&rows, s), hold_looseness(&rows, s | subset(&mut rng, rows.len())));
        assert!(loose <= larger, "{rows:X?} s={s:X}");
        above[0] += (loose > MOST_SLACK) as usize;
        above[1] += (larger > MOST_SLACK) as usize;
    }
    println!("{cases} pairs of sets, of which {above:?} are looser than the limit of slack");
    assert!(above[0] > 1000 && above[1] > 1000);
}

#[test]
fn how_loose_sets_beyond_the_limit_of_slack_are() {
    for size in 1..64 {
        let s = plain::full(size);
        assert_eq!(hold_looseness(&[0; 64], s), size, "no edge");
        assert_eq!(hold_looseness(&instances::complete(64), s), 1, "every edge");
        assert_eq!(hold_looseness(&instances::star(64), s), (size - 1).max(1), "a leaf misses all but the centre");
        assert_eq!(hold_looseness(&instances::ring(64), s), (size - 1).max(1), "an end misses all but its neighbour");
    }
    for (rows, loose) in [(vec![0; 64], 64), (instances::complete(64), 1), (instances::star(64), 63), (instances::ring(64), 62)] {
        assert_eq!(hold_looseness(&rows, u64::MAX), loose);
    }
}

#[test]
fn refusals_10_and_11_and_maximality_compare_looseness_with_the_slack() {
    let (mut rng, mut cases) = (Rng(23), [0; 2]);
    for _ in 0..many(2000) {
        let rows = graph(&mut rng, 2, 40);
        let (s, v) = (subset(&mut rng, rows.len()), rng.below(rows.len()));
        let (loose, larger, c) = (looseness(&rows, s).found as usize, looseness(&rows, s | 1 << v).found as usize, 1 << v & !s);
        for k in 1..=MOST_SLACK {
            let bounded = first_bound(&rows, k, s & !c, c, v).number == 0;
            assert_eq!(bounded, c != 0 && larger <= k, "{rows:X?} k={k} s={s:X} v={v}");
            assert!(loose <= k || is_maximal(&rows, k, s) == yes_no(false), "{rows:X?} k={k} s={s:X}");
            // a whole graph is quickly found, and one that is too loose refused
            let all = plain::full(rows.len());
            let whole = looseness(&rows, all).found as usize <= k;
            assert_eq!(largest(&rows, k, all), if whole { success(rows.len(), all) } else { refused((11, 0)) }, "{rows:X?} k={k}");
            cases[0] += bounded as usize;
            cases[1] += whole as usize;
        }
    }
    println!("bounds given and whole graphs forced: {cases:?}");
    assert!(cases.iter().all(|&held| held > 1000));
}

#[test]
fn every_set_of_every_graph_of_up_to_five_vertices() {
    let mut cases = 0;
    for n in 1..=5 {
        for rows in all_graphs(n) {
            for k in 1..=n {
                for s in 0..1u64 << n {
                    assert_eq!(is_maximal(&rows, k, s), yes_no(plain::is_maximal_by_all(&rows, k, s)), "{rows:X?} k={k} s={s:X}");
                    cases += 1;
                }
            }
        }
    }
    println!("{cases} sets of every graph of up to 5 vertices judged");
}

#[test]
fn random_sets_of_up_to_64_vertices() {
    let mut rng = Rng(2);
    let (mut plexes, mut maximal) = (0, 0);
    for _ in 0..many(20_000) {
        let (rows, k) = (graph(&mut rng, 1, 64), rng.between(1, MOST_SLACK));
        let n = rows.len();
        let s = match rng.below(4) {
            0 => subset(&mut rng, n),
            1 => plain::full(n),
            2 => grown_plex(&mut rng, &rows, k),
            _ => {
                // grown until nothing can be added, and then now and then changed
                let mut s = grown_plex(&mut rng, &rows, k);
                for v in 0..n {
                    if plain::looseness(&rows, s | 1 << v) <= k {
                        s |= 1 << v;
                    }
                }
                if rng.chance(0.3) {
                    s ^ 1 << rng.below(n)
                } else {
                    s
                }
            }
        };
        let (plex, most) = (hold_looseness(&rows, s) <= k, plain::is_maximal_by_one(&rows, k, s));
        plexes += plex as usize;
        maximal += most as usize;
        assert_eq!(is_maximal(&rows, k, s), yes_no(most), "{rows:X?} k={k} s={s:X}");
    }
    println!("random sets: {plexes} plexes, {maximal} maximal ones");
    assert!(plexes > 1000 && maximal > 1000);
}

#[test]
fn the_reach_of_every_vertex() {
    let mut rng = Rng(7);
    for case in 0..many(2000) {
        let rows = if case % 3 == 0 { instances::random(rng.between(1, 64), 0.06 * rng.unit(), rng.word()) } else { graph(&mut rng, 1, 64) };
        for v in 0..rows.len() {
            assert_eq!(reach(&rows, v), success(0, plain::reach(&rows, v)), "{rows:X?} v={v}");
        }
    }
}

#[test]
fn worked_edges() {
    let ring = [0x12, 0x05, 0x0A, 0x14, 0x09];
    assert_eq!(reach(&[0x2, 0x5, 0xA, 0x4], 0), success(0, 0x7));
    assert_eq!(is_maximal(&ring, 1, 0), yes_no(false));
    // a member counts itself among what it misses
    for (s, loose) in [(0, 0), (0x10, 1), (0x03, 1), (0x05, 2), (0x07, 2), (0x0B, 3), (0x0F, 3), (0x1F, 3)] {
        assert_eq!((looseness(&ring, s), hold_looseness(&ring, s)), (success(0, loose as u64), loose), "s={s:X}");
    }
}
