//! Every call that takes a slack, at each slack from 0 to 40 and at very large ones: 1 to 5 are answered, and every other is refusal 2, which leaves the
//! buffers.
use kadvisk::ffi::Outcome;
use outside::book::{Book, Change};
use outside::calls::*;
use outside::cases::LARGE_SLACKS;
use outside::instances;
use outside::refusals::{self, when};
use outside::{brute, plain, text};

const GARBAGE: u64 = 0x0123_4567_89AB_CDEF;

fn slacks() -> impl Iterator<Item = usize> {
    (0..=40).chain(LARGE_SLACKS)
}

fn graphs() -> Vec<Vec<u64>> {
    vec![instances::ring(5), vec![0; 7], instances::complete(12), instances::star(9), instances::random(11, 0.6, 1), instances::multipartite(12, 6)]
}

/// Every graph above with every slack.
fn each(mut hold: impl FnMut(&[u64], usize)) {
    graphs().iter().for_each(|rows| slacks().for_each(|k| hold(rows, k)));
}

/// The least floor beside a slack, if any, one less and one more, and floors at and around the limits.
fn floors(k: usize) -> [usize; 8] {
    let least = k.wrapping_mul(2).wrapping_sub(1);
    [least, least.wrapping_sub(1), least.wrapping_add(1), 0, 9, 64, 65, usize::MAX]
}

/// A call on a valid table tells 2 exactly where the slack is not 1 to 5.
fn hold_two(number: usize, k: usize) {
    assert_eq!(number == 2, !(1..=5).contains(&k), "k={k}");
}

#[test]
fn of_the_judge_the_bounds_and_the_largest() {
    each(|rows, k| {
        let n = rows.len();
        for s in [0, 1, 3, plain::full(n), plain::full(n - 1), 5, 1 << (n - 1)] {
            let outcome = is_maximal(rows, k, s);
            hold_two(outcome.number, k);
            assert_eq!(outcome, refusals::maximal(rows, k, s).map_or_else(|| success(0, plain::is_maximal_by_one(rows, k, s) as u64), refused));
            let outcome = largest(rows, k, s);
            hold_two(outcome.number, k);
            let best = || outside::largest::by_all_sets(rows, k, s);
            assert_eq!(outcome, refusals::largest(rows, k, s).map_or_else(|| success(best().0, best().1), refused));
            let (c, v) = (plain::full(n) & !s, n / 2);
            let (first, second) = (first_bound(rows, k, s, c, v), second_bound(rows, k, s, c, v));
            hold_two(first.number, k);
            let owed = refusals::bound(rows, k, s, c, v);
            assert_eq!(first, owed.map_or_else(|| success(0, plain::first_bound(rows, k, s, c, v) as u64), refused));
            assert_eq!(second, owed.map_or_else(|| success(0, plain::second_bound(rows, k, s, c, v) as u64), refused));
        }
    });
}

#[test]
fn of_the_core() {
    each(|rows, k| {
        for q in floors(k) {
            let outcome = core(rows, k, q);
            hold_two(outcome.number, k);
            let owed = refusals::core(rows, k, q);
            assert_eq!(outcome, owed.map_or_else(|| cored(plain::passes(rows, q - k)), core_refused));
        }
    });
}

#[test]
fn of_the_list_with_every_cut_and_none() {
    let mut listed = [0; 6];
    each(|rows, k| {
        for (q, silent) in floors(k).into_iter().flat_map(|q| [(q, 0), (q, 0x05)]) {
            let owed = refusals::request(rows, k, q, silent);
            let want = if owed.is_none() { brute::list(rows, k, q, silent) } else { vec![] };
            let m = want.len();
            let after = [&want[..], &[GARBAGE; 2]].concat();
            let with = |flags| move |slots: &mut [u64]| list_with(rows, k, q, silent, flags, slots);
            let calls: [&dyn Fn(&mut [u64]) -> Outcome; 3] = [&|slots| list(rows, k, q, silent, slots), &with(127), &with(0)];
            for call in calls {
                let mut slots = vec![GARBAGE; m + 2];
                let outcome = call(&mut slots);
                hold_two(outcome.number, k);
                assert_eq!(outcome, owed.map_or(success(m, 0), refused), "{rows:X?} k={k} q={q} silent={silent:X}");
                assert_eq!(slots, after, "{rows:X?} k={k} q={q} silent={silent:X}");
            }
            if owed.is_none() {
                listed[k] += m;
            }
        }
    });
    println!("masks listed by slack: {listed:?}");
    assert!(listed[1..].iter().all(|&masks| masks > 0));
}

#[test]
fn of_a_change_of_a_book() {
    each(|rows, k| {
        for (q, silent) in floors(k).into_iter().flat_map(|q| [(q, 0), (q, 0x05)]) {
            let change = Change::of(rows, 0, rows.len() - 1);
            let mut book = Book { rows: rows.to_vec(), slack: k, floor: q, silent, slots: vec![GARBAGE; 200] };
            let (want, after) = book.owed(change, brute::list);
            let outcome = book.change(change);
            hold_two(outcome.number, k);
            assert_eq!((outcome, &book), (want, &after), "{rows:X?} k={k} q={q} silent={silent:X}");
        }
    });
}

#[test]
fn of_writing_a_sheet() {
    let (mut written, mut declined) = (0, 0);
    each(|rows, k| {
        for (q, short) in floors(k).into_iter().flat_map(|q| [(q, 0), (q, 1)]) {
            let needed = 24 + 17 * rows.len();
            let mut bytes = vec![0xC3; needed - short];
            let outcome = write_sheet(rows, k, q, 0x05, &mut bytes);
            hold_two(outcome.number, k);
            let owed = refusals::writing(rows, k, q, 0x05).or_else(|| when(short > 0, 9, needed));
            assert_eq!(outcome, owed.map_or(success(needed, 0), refused));
            assert_eq!(bytes, if owed.is_some() { vec![0xC3; needed - short] } else { text::write(rows, k, q, 0x05) });
            written += owed.is_none() as usize;
            declined += (outcome.number == 14) as usize;
        }
    });
    // the graph without an edge is the one that is declined
    assert!(written > 0 && declined > 0);
}

#[test]
fn of_reading_a_sheet() {
    let (ring, before) = (instances::ring(5), [GARBAGE; 6]);
    // two digits: 0 to 255
    for (k, q) in (0..256).flat_map(|k| (0..256).map(move |q| (k, q))) {
        let mut rows = before;
        let outcome = read_sheet(&text::write(&ring, k, q, 0x05), &mut rows);
        hold_two(outcome.number, k);
        let owed = refusals::slack(k).or_else(|| refusals::floor(k, q));
        assert_eq!(outcome, owed.map_or(read(5, k, q, 0x05), unread));
        assert_eq!(rows[..], if owed.is_some() { before.to_vec() } else { [&ring[..], &[GARBAGE]].concat() });
    }
}

#[test]
fn of_the_wrapper() {
    let ring = instances::ring(5);
    for k in slacks() {
        let owed = if (1..=5).contains(&k) { Ok(()) } else { Err(kadvisk::Refusal::Slack) };
        assert_eq!(kadvisk::list(&ring, k, 64, 0, &mut []).map(|_| ()), owed);
        assert_eq!(kadvisk::core(&ring, k, 64).map(|_| ()), owed);
        assert_eq!(kadvisk::largest(&ring, k, 1).map(|_| ()), owed);
        assert_eq!(kadvisk::is_maximal(&ring, k, 3).map(|_| ()), owed);
        assert_eq!(kadvisk::first_bound(&ring, k, 1, 2, 1).map(|_| ()), owed);
        assert_eq!(kadvisk::second_bound(&ring, k, 1, 2, 1).map(|_| ()), owed);
        assert_eq!(kadvisk::change(&mut ring.clone(), k, 64, 0, 0, 2, true, &mut []).map(|_| ()), owed);
    }
}
