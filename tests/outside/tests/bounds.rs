//! Both bounds against their definitions, and above the largest k-plex.
use outside::calls::{first_bound, refused, second_bound, success};
use outside::cases::{graph, grown_plex, many, subset};
use outside::instances::Rng;
use outside::plain;
use outside::refusals::MOST_SLACK;

/// A place where the bounds are defined: a k-plex s, candidates c beside it, and a vertex v of c that makes a k-plex with s.
fn place(rng: &mut Rng, rows: &[u64], k: usize) -> Option<(u64, u64, usize)> {
    let s = grown_plex(rng, rows, k);
    let c = (subset(rng, rows.len()) | subset(rng, rows.len())) & !s;
    let open: Vec<usize> = plain::members(c).into_iter().filter(|&v| plain::looseness(rows, s | 1 << v) <= k).collect();
    (!open.is_empty()).then(|| (s, c, open[rng.below(open.len())]))
}

#[test]
fn random_places_of_up_to_64_vertices() {
    let mut rng = Rng(10);
    let (mut cases, mut apart) = (0, 0);
    for _ in 0..many(30_000) {
        let (rows, k) = (graph(&mut rng, 1, 64), rng.between(1, MOST_SLACK));
        if let Some((s, c, v)) = place(&mut rng, &rows, k) {
            let (first, second) = (plain::first_bound(&rows, k, s, c, v), plain::second_bound(&rows, k, s, c, v));
            assert_eq!(first_bound(&rows, k, s, c, v), success(0, first as u64), "{rows:X?} k={k} s={s:X} c={c:X} v={v}");
            assert_eq!(second_bound(&rows, k, s, c, v), success(0, second as u64), "{rows:X?} k={k} s={s:X} c={c:X} v={v}");
            assert!(second <= first);
            cases += 1;
            apart += (second < first) as usize;
        }
    }
    println!("{cases} places, at {apart} of them the second bound is below the first");
    assert!(apart > 100);
}

#[test]
fn no_bound_is_below_the_largest_plex() {
    let mut rng = Rng(11);
    let (mut cases, mut tight) = (0, 0);
    for _ in 0..many(6000) {
        let (rows, k) = (graph(&mut rng, 2, 12), rng.between(1, 4));
        if let Some((s, c, v)) = place(&mut rng, &rows, k) {
            let largest = plain::largest(&rows, k, s, c, v) as u64;
            let (first, second) = (first_bound(&rows, k, s, c, v).found, second_bound(&rows, k, s, c, v).found);
            assert!(largest <= second && second <= first, "{rows:X?} k={k} s={s:X} c={c:X} v={v}: {largest} {second} {first}");
            cases += 1;
            tight += (largest == second) as usize;
        }
    }
    println!("{cases} places, at {tight} of them the second bound is the size of the largest plex");
}

#[test]
fn worked_edge() {
    // seven vertices: 0, 1, 2 all adjacent; 3 adjacent to all; 4, 5, 6 adjacent to 1, 2 and 3
    let rows = [0x0E, 0x7D, 0x7B, 0x77, 0x0E, 0x0E, 0x0E];
    assert_eq!(first_bound(&rows, 2, 0x07, 0x78, 3), success(0, 8));
    assert_eq!(second_bound(&rows, 2, 0x07, 0x78, 3), success(0, 6));
    assert_eq!(plain::largest(&rows, 2, 0x07, 0x78, 3), 5);
    // v not in c, overlap, and no plex
    assert_eq!(first_bound(&rows, 2, 0x07, 0x70, 3), refused((10, 0)));
    assert_eq!(second_bound(&rows, 2, 0x07, 0x7C, 3), refused((10, 0)));
    assert_eq!(second_bound(&rows, 1, 0x07, 0x78, 4), refused((10, 0)));
}
