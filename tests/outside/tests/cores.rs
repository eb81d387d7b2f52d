//! The core and its passes, against plain passes over lists of vertices; the core besides by a worklist, and by trying all sets.
use outside::calls::{core, core_refused, cored, reach};
use outside::cases::{all_graphs, faulty_rows, first_of, graph, many};
use outside::instances::{self, Rng};
use outside::plain;
use outside::refusals::{self, MOST_SLACK};

/// Every slack that is accepted, with every floor beside it.
fn requests() -> impl Iterator<Item = (usize, usize)> {
    (1..=MOST_SLACK).flat_map(|k| (2 * k - 1..=64).map(move |q| (k, q)))
}

/// Holds the call and the wrapper to plain passes, the core to the worklist, and the passes to what is shown of them. Gives the core and the passes.
fn hold(rows: &[u64], k: usize, q: usize) -> (u64, usize) {
    let (mask, passes) = plain::passes(rows, q - k);
    assert_eq!(core(rows, k, q), cored((mask, passes)), "{rows:X?} k={k} q={q}");
    assert_eq!(kadvisk::core(rows, k, q), Ok(kadvisk::Core { mask, passes }), "{rows:X?} k={k} q={q}");
    assert_eq!(mask, plain::core(rows, q - k), "{rows:X?} k={k} q={q}");
    let taken = rows.len() - mask.count_ones() as usize;
    assert!(1 <= passes && passes <= 1 + taken && (passes == 1) == (taken == 0), "{rows:X?} k={k} q={q}");
    (mask, passes)
}

#[test]
fn of_every_graph_of_up_to_five_vertices() {
    let mut by_passes = [0; 7];
    for rows in (1..=5).flat_map(all_graphs) {
        for k in 1..=3 {
            for q in 2 * k - 1..=rows.len().max(2 * k - 1) + 2 {
                let (mask, passes) = hold(&rows, k, q);
                assert_eq!(mask, plain::core_by_all(&rows, q - k), "{rows:X?} k={k} q={q}");
                by_passes[passes] += 1;
            }
        }
    }
    println!("graphs of up to 5 vertices by passes: {by_passes:?}");
    assert!(by_passes[1..=4].iter().all(|&graphs| graphs > 0));
}

#[test]
fn of_random_graphs_of_up_to_64_vertices() {
    let (mut rng, mut between, mut by_passes) = (Rng(3), 0, [0; 66]);
    for case in 0..many(20_000) {
        let k = rng.between(1, 5);
        // few edges in every second graph, with floors about the usual degree
        let (rows, q) = if case % 2 == 0 {
            (graph(&mut rng, 1, 64), rng.between(2 * k - 1, (2 * k + 30).min(64)))
        } else {
            (instances::random(rng.between(1, 64), 0.12 * rng.unit(), rng.word()), 2 * k - 1 + rng.below(4))
        };
        let (mask, passes) = hold(&rows, k, q);
        between += (mask != 0 && mask.count_ones() < rows.len() as u32) as usize;
        by_passes[passes] += 1;
    }
    println!("random graphs by passes: {by_passes:?}");
    assert!(between > 100, "only {between} cores are neither empty nor all");
    assert!(by_passes[1..=8].iter().all(|&graphs| graphs > 10));
}

#[test]
fn at_every_slack_and_floor() {
    let mut rng = Rng(4);
    let mut graphs: Vec<Vec<u64>> = [1, 2, 3, 7, 31, 63, 64].map(|n| instances::random(n, rng.unit(), rng.word())).to_vec();
    graphs.extend([instances::complete(64), instances::star(64), instances::ring(64), vec![0; 64], instances::planted(64, 0.1, 2, 20, 0.9, 5)]);
    for rows in &graphs {
        requests().for_each(|(k, q)| {
            hold(rows, k, q);
        });
    }
    assert_eq!(requests().count(), 300);
}

/// The passes of a graph with vertices of degree 2 or more wanted.
fn passes_of(rows: &[u64]) -> usize {
    hold(rows, 1, 3).1
}

#[test]
fn by_rising_number() {
    for n in 3..=64 {
        let (rising, falling): (Vec<usize>, Vec<usize>) = ((0..n).collect(), (0..n).rev().collect());
        // both ends of a path are looked at first, or last
        assert_eq!(passes_of(&instances::path(&rising)), 2);
        assert_eq!(passes_of(&instances::path(&instances::outward(n))), n.div_ceil(2) + 1);
        // a path to a triangle ends with the highest vertex, or with the lowest
        assert_eq!(passes_of(&instances::lollipop(&rising)), n - 2);
        assert_eq!(passes_of(&instances::lollipop(&falling)), 2.min(n - 2));
    }
}

#[test]
fn whatever_the_numbers_the_core_is_the_same() {
    let mut rng = Rng(6);
    let mut other = 0;
    for _ in 0..many(2000) {
        let (rows, q) = (instances::random(rng.between(2, 64), 0.12 * rng.unit(), rng.word()), rng.between(2, 5));
        let n = rows.len();
        let mirrored: Vec<u64> = rows.iter().rev().map(|row| row.reverse_bits() >> (64 - n)).collect();
        let ((mask, passes), (back, passes_back)) = (hold(&rows, 1, q), hold(&mirrored, 1, q));
        assert_eq!(mask, back.reverse_bits() >> (64 - n), "{rows:X?} q={q}");
        other += (passes != passes_back) as usize;
    }
    assert!(other > 100, "only {other} graphs take another number of passes from the other side");
}

#[test]
fn it_holds_every_listed_plex() {
    let mut rng = Rng(5);
    for _ in 0..many(200) {
        let (rows, k) = (graph(&mut rng, 1, 18), rng.between(1, 3));
        let q = 2 * k - 1 + rng.below(5);
        let (within, _) = hold(&rows, k, q);
        for plex in kadvisk::list_all(&rows, k, q, 0).unwrap() {
            assert_eq!(plex & !within, 0);
            for v in plain::members(plex) {
                assert_eq!(plex & !reach(&rows, v).found, 0);
            }
        }
    }
}

#[test]
fn each_refusal_beside_each_other() {
    for choice in 0..64 {
        let causes: [bool; 5] = std::array::from_fn(|i| choice >> i & 1 == 1);
        let [vertices, slack, floor, row, one_way] = causes;
        let rows = faulty_rows([vertices, row, one_way], choice >> 5 == 1);
        for k in if slack { vec![0, 6, 32, usize::MAX] } else { vec![1, 5] } {
            let least = 2usize.wrapping_mul(k).wrapping_sub(1);
            // beside a wrong slack every floor is wrong or not looked at
            for q in if floor { vec![0, least.wrapping_sub(1), 65, usize::MAX] } else { vec![least, 64] } {
                if !slack && floor && (least..=64).contains(&q) {
                    continue;
                }
                let owed = first_of([(1, 0), (2, 0), (3, 0), (4, 3), (5, 2)], causes);
                assert_eq!(owed, refusals::core(&rows, k, q), "causes {causes:?} k={k} q={q}");
                let want = owed.map_or_else(|| cored(plain::passes(&rows, q - k)), core_refused);
                assert_eq!(core(&rows, k, q), want, "causes {causes:?} k={k} q={q}");
            }
        }
    }
}

#[test]
fn worked_edges() {
    let ring = [0x12, 0x05, 0x0A, 0x14, 0x09];
    assert_eq!(core(&ring, 2, 4), cored((0x1F, 1)));
    assert_eq!(core(&ring, 2, 5), cored((0, 2)));
    // a path 2, 0, 1, 3: its ends go first
    assert_eq!(core(&[0x6, 0x9, 0x1, 0x2], 1, 3), cored((0, 3)));
    assert_eq!(core(&[0], 1, 1), cored((1, 1)));
    assert_eq!(core(&[0], 1, 2), cored((0, 2)));
    assert_eq!(core(&instances::complete(64), 1, 64), cored((u64::MAX, 1)));
    assert_eq!(core(&instances::star(64), 1, 3), cored((0, 3)));
}
