//! Every refusal of every call, with its value, its place in the order, and the buffers it leaves.
use kadvisk::ffi::Outcome;
use outside::book::{Book, Change};
use outside::calls::*;
use outside::cases::{damage, faulty_linked_rows, faulty_rows, first_of, floor, graph, linked, many, slack, subset, LOWEST_ISOLATED};
use outside::instances::Rng;
use outside::refusals::{self, when, Refused};
use outside::{plain, text};

const GARBAGE: u64 = 0x0123_4567_89AB_CDEF;

/// A table that is valid, wrong in some way, or of a length that is not accepted.
fn table(rng: &mut Rng) -> Vec<u64> {
    let mut rows = match rng.below(20) {
        0 => vec![],
        1 => vec![0; rng.between(65, 200)],
        2 => (0..rng.between(1, 70)).map(|_| rng.word()).collect(),
        _ => graph(rng, 1, 64),
    };
    if rng.chance(0.4) {
        damage(rng, &mut rows);
    }
    rows
}

fn set(rng: &mut Rng, n: usize) -> u64 {
    if rng.chance(0.2) {
        rng.word()
    } else {
        subset(rng, n.min(64))
    }
}

/// One more than the highest number of a refusal.
const NUMBERS: usize = 15;

struct Tally([usize; NUMBERS]);

impl Tally {
    fn none() -> Tally {
        Tally([0; NUMBERS])
    }

    /// Counts what is owed, and holds the call to it.
    fn count(&mut self, owed: Refused, hold: impl FnOnce(Refused)) {
        self.0[owed.map_or(0, |(number, _)| number)] += 1;
        hold(owed);
    }

    /// Holds an outcome to the refusal that is owed, or to what is found.
    fn hold(&mut self, outcome: Outcome, owed: Refused, found: impl FnOnce() -> Outcome) {
        self.count(owed, |owed| assert_eq!(outcome, owed.map_or_else(found, refused)));
    }

    fn all_of(&self, numbers: &[usize]) {
        println!("outcomes by number: {:?}", self.0);
        assert!((0..NUMBERS).all(|number| (self.0[number] > 10) == numbers.contains(&number)), "{:?}", self.0);
    }
}

#[test]
fn judging() {
    let (mut rng, mut loose, mut maximal) = (Rng(30), Tally::none(), Tally::none());
    for _ in 0..many(20_000) {
        let (rows, k) = (table(&mut rng), slack(&mut rng));
        let s = set(&mut rng, rows.len());
        loose.hold(looseness(&rows, s), refusals::loose(&rows, s), || success(0, plain::looseness(&rows, s) as u64));
        maximal.hold(is_maximal(&rows, k, s), refusals::maximal(&rows, k, s), || success(0, plain::is_maximal_by_one(&rows, k, s) as u64));
    }
    loose.all_of(&[0, 1, 4, 5, 7]);
    maximal.all_of(&[0, 1, 2, 4, 5, 7]);
}

#[test]
fn core_and_reach() {
    let (mut rng, mut cores, mut reaches) = (Rng(31), Tally::none(), Tally::none());
    for _ in 0..many(20_000) {
        let (rows, k) = (table(&mut rng), slack(&mut rng));
        let q = floor(&mut rng, k);
        cores.count(refusals::core(&rows, k, q), |owed| match owed {
            Some(refusal) => assert_eq!(core(&rows, k, q), core_refused(refusal)),
            None => assert_eq!(core(&rows, k, q), cored(plain::passes(&rows, q - k))),
        });
        let v = if rng.chance(0.1) { [rows.len(), 64, 65, usize::MAX][rng.below(4)] } else { rng.below(rows.len() + 1) };
        reaches.hold(reach(&rows, v), refusals::reach(&rows, v), || success(0, plain::reach(&rows, v)));
    }
    cores.all_of(&[0, 1, 2, 3, 4, 5]);
    reaches.all_of(&[0, 1, 4, 5, 7]);
}

#[test]
fn bounds() {
    let (mut rng, mut tally) = (Rng(32), Tally::none());
    for _ in 0..many(20_000) {
        let (rows, k) = (table(&mut rng), slack(&mut rng));
        let (s, c) = (set(&mut rng, rows.len()) & set(&mut rng, rows.len()), set(&mut rng, rows.len()));
        let c = if rng.chance(0.7) { c & !s } else { c };
        let v = if rng.chance(0.1) { [rows.len(), 64, usize::MAX][rng.below(3)] } else { rng.below(rows.len() + 1) };
        let owed = refusals::bound(&rows, k, s, c, v);
        tally.hold(first_bound(&rows, k, s, c, v), owed, || success(0, plain::first_bound(&rows, k, s, c, v) as u64));
        tally.hold(second_bound(&rows, k, s, c, v), owed, || success(0, plain::second_bound(&rows, k, s, c, v) as u64));
    }
    tally.all_of(&[0, 1, 2, 4, 5, 7, 10]);
}

#[test]
fn lists() {
    let (mut rng, mut tally) = (Rng(33), Tally::none());
    for _ in 0..many(10_000) {
        let (mut rows, k) = (table(&mut rng), slack(&mut rng));
        rows.truncate(if rng.chance(0.9) { 24 } else { 200 });
        if rng.chance(0.8) {
            let n = rows.len();
            rows.iter_mut().for_each(|row| *row &= (1u64 << n.min(63)) - 1);
        }
        let (q, silent) = (floor(&mut rng, k), set(&mut rng, rows.len()));
        let owed = refusals::request(&rows, k, q, silent);
        if owed.is_none() && rows.len() > 24 {
            continue;
        }
        let garbage: Vec<u64> = (0..rng.below(30)).map(|i| GARBAGE + i as u64).collect();
        let mut slots = garbage.clone();
        let outcome = list(&rows, k, q, silent, &mut slots);
        match owed {
            Some(refusal) => {
                tally.hold(outcome, Some(refusal), || unreachable!());
                assert_eq!(slots, garbage, "refusals 1 to 5 and 7 leave the slots");
            }
            None => {
                let want = outside::book::list(&rows, k, q, silent);
                let m = want.len();
                tally.hold(outcome, when(slots.len() < m, 6, m), || success(m, 0));
                let after = if slots.len() < m { vec![0; slots.len()] } else { [&want[..], &garbage[m..]].concat() };
                assert_eq!(slots, after);
            }
        }
    }
    tally.all_of(&[0, 1, 2, 3, 4, 5, 6, 7]);
}

/// A number for a vertex: one of the graph, mostly.
fn vertex(rng: &mut Rng, n: usize) -> usize {
    match rng.below(20) {
        0 => [n, n + 1, 63, 64, 65, usize::MAX][rng.below(6)],
        _ => rng.below(n.max(1)),
    }
}

#[test]
fn changes() {
    let (mut rng, mut tally) = (Rng(36), Tally::none());
    for _ in 0..many(20_000) {
        let (mut rows, k) = (table(&mut rng), slack(&mut rng));
        rows.truncate(if rng.chance(0.9) { 24 } else { 200 });
        if rng.chance(0.8) {
            let n = rows.len();
            rows.iter_mut().for_each(|row| *row &= (1u64 << n.min(63)) - 1);
        }
        let (q, silent) = (floor(&mut rng, k), set(&mut rng, rows.len()));
        let (a, b, adjacent) = (vertex(&mut rng, rows.len()), vertex(&mut rng, rows.len()), rng.chance(0.5));
        let owed = refusals::change(&rows, k, q, silent, a, b, adjacent);
        if owed.is_none() && rows.len() > 24 {
            continue;
        }
        let slots = (0..rng.below(30)).map(|i| GARBAGE + i as u64).collect();
        let mut book = Book { rows, slack: k, floor: q, silent, slots };
        let (outcome, after) = book.owed(Change { a, b, adjacent }, outside::book::list);
        let told = when(outcome.number != 0, outcome.number, outcome.value);
        assert!(owed.is_none() || owed == told);
        tally.hold(book.change(Change { a, b, adjacent }), told, || outcome);
        assert_eq!(book, after, "a change leaves what it does not name, and a refusal leaves all");
    }
    tally.all_of(&[0, 1, 2, 3, 4, 5, 6, 7, 12, 13]);
}

#[test]
fn largest_plexes() {
    let (mut rng, mut tally) = (Rng(35), Tally::none());
    for _ in 0..many(10_000) {
        let (mut rows, k) = (table(&mut rng), slack(&mut rng));
        rows.truncate(if rng.chance(0.9) { 16 } else { 200 });
        if rng.chance(0.8) {
            let n = rows.len();
            rows.iter_mut().for_each(|row| *row &= (1u64 << n.min(63)) - 1);
        }
        let forced = set(&mut rng, rows.len()) & set(&mut rng, rows.len());
        let owed = refusals::largest(&rows, k, forced);
        if owed.is_none() && rows.len() > 16 {
            continue;
        }
        tally.hold(largest(&rows, k, forced), owed, || {
            let (size, mask) = outside::largest::plain(&rows, k, forced);
            success(size, mask)
        });
    }
    tally.all_of(&[0, 1, 2, 4, 5, 7, 11]);
}

#[test]
fn writing() {
    let (mut rng, mut tally) = (Rng(34), Tally::none());
    for _ in 0..many(10_000) {
        let rows = if rng.chance(0.5) { table(&mut rng) } else { linked(&mut rng, 2, 64) };
        let k = slack(&mut rng);
        let (q, silent) = (floor(&mut rng, k), set(&mut rng, rows.len()));
        let needed = 24 + 17 * rows.len();
        let mut bytes = vec![0xC3; if rng.chance(0.5) { needed + rng.below(9) } else { rng.below(needed + 1) }];
        let owed = refusals::writing(&rows, k, q, silent).or_else(|| when(bytes.len() < needed, 9, needed));
        let room = bytes.len();
        tally.hold(write_sheet(&rows, k, q, silent, &mut bytes), owed, || success(needed, 0));
        let written = if owed.is_some() { vec![] } else { text::write(&rows, k, q, silent) };
        assert_eq!(bytes[..written.len()], written);
        assert_eq!(bytes[written.len()..], vec![0xC3; room - written.len()]);
    }
    tally.all_of(&[0, 1, 2, 3, 4, 5, 7, 9, 14]);
}

#[test]
fn limits_of_slack_and_floor() {
    let rows = outside::instances::complete(64);
    let mut none: [u64; 0] = [];
    for (k, q, number) in [
        (5, 9, 6),
        (5, 8, 3),
        (6, 11, 2),
        (6, 8, 2),
        (6, 64, 2),
        (6, 65, 2),
        (32, 63, 2),
        (0, 0, 2),
        (1, 0, 3),
        (1, 1, 6),
        (1, 64, 6),
        (1, 65, 3),
        (5, 64, 6),
        (5, 65, 3),
        (usize::MAX, usize::MAX, 2),
        (1, usize::MAX, 3),
        (1usize << 63, 0, 2),
    ] {
        assert_eq!(list(&rows, k, q, 0, &mut none), refused((number, (number == 6) as usize)), "k={k} q={q}");
    }
}

#[test]
fn the_order_of_causes_of_looseness() {
    // every choice of the causes 1, 4, 5 and 7; five vertices without an edge are 5 loose
    for choice in 0..16u32 {
        let causes: [bool; 4] = std::array::from_fn(|i| choice >> i & 1 == 1);
        let [vertices, row, one_way, outside] = causes;
        for empty in [false, true] {
            let (rows, s) = (faulty_rows([vertices, row, one_way], empty), if outside { 1 << 63 } else { 0x1F });
            let owed = first_of([(1, 0), (4, 3), (5, 2), (7, 0)], causes);
            assert_eq!(looseness(&rows, s), owed.map_or(success(0, 5), refused), "causes {causes:?}");
            assert_eq!(owed, refusals::loose(&rows, s), "causes {causes:?}");
        }
    }
}

/// The slack, floor and silent vertices of what the list and writing are asked of five vertices, with the chosen ones of the causes 2, 3, 7, in one of four
/// ways.
fn faulty([slack, floor, silent]: [bool; 3], way: usize) -> (usize, usize, u64) {
    let slack = if slack { [0, 6, 1 << 63, usize::MAX][way] } else { 1 };
    let floor = if floor { [0, 65, 1 << 63, usize::MAX][way] } else { 1 };
    let silent = if silent { [1 << 5, 1 << 63, u64::MAX, 0x30][way] } else { [0, 0x01, 0x10, 0x14][way] };
    (slack, floor, silent)
}

/// Every choice of the causes, in every way.
fn choices<const N: usize>() -> impl Iterator<Item = ([bool; N], bool, usize)> {
    let ways = [(false, 0), (false, 1), (false, 2), (false, 3), (true, 0), (true, 3)];
    (0..1usize << N).flat_map(move |choice| ways.map(|(empty, way)| (std::array::from_fn(|i| choice >> i & 1 == 1), empty, way)))
}

#[test]
fn the_order_of_causes_of_the_list() {
    // 1, 2, 3, 7, 4, 5, and 6: each beside each other, of a graph without an edge
    let mut tally = Tally::none();
    for (causes, empty, way) in choices::<7>() {
        let [vertices, slack, floor, silent, row, one_way, _] = causes;
        let (rows, (k, q, silent)) = (faulty_rows([vertices, row, one_way], empty), faulty([slack, floor, silent], way));
        let want: Vec<u64> = (0..5).map(|v| 1 << v).filter(|s| s & silent == 0).collect();
        let garbage = vec![GARBAGE; if causes[6] { way.min(2) } else { 5 }];
        let owed = first_of([(1, 0), (2, 0), (3, 0), (7, 0), (4, 3), (5, 2), (6, want.len())], causes);
        let after = match owed {
            Some((6, _)) => vec![0; garbage.len()],
            Some(_) => garbage.clone(),
            None => [&want[..], &garbage[want.len()..]].concat(),
        };
        assert!(causes[6] || owed == refusals::request(&rows, k, q, silent));
        let (mut slots, mut others) = (garbage.clone(), garbage);
        tally.hold(list(&rows, k, q, silent, &mut slots), owed, || success(want.len(), 0));
        tally.hold(list_with(&rows, k, q, silent, 42, &mut others), owed, || success(want.len(), 0));
        assert_eq!((&slots, &others), (&after, &after), "causes {causes:?}, way {way}");
    }
    println!("{:?}", tally.0);
    assert!([0, 1, 2, 3, 4, 5, 6, 7].iter().all(|&number| tally.0[number] > 0));
}

#[test]
fn the_order_of_causes_of_writing() {
    // 1, 2, 3, 7, 4, 5, 14, and 9: each beside each other, of a graph in which but for 14 each vertex has a neighbour
    let mut tally = Tally::none();
    for (causes, empty, way) in choices::<8>() {
        let [vertices, slack, floor, silent, row, one_way, isolated, short] = causes;
        let rows = faulty_linked_rows([vertices, row, one_way, isolated], empty, way);
        assert!(vertices || rows.iter().position(|&row| row == 0) == isolated.then_some(LOWEST_ISOLATED[way]));
        let (k, q, silent) = faulty([slack, floor, silent], way);
        let needed = 24 + 17 * rows.len();
        let before = vec![0xC3; if short { [0, 23, 24, needed - 1][way].min(needed - 1) } else { needed + way }];
        let owed = first_of([(1, 0), (2, 0), (3, 0), (7, 0), (4, 3), (5, 2), (14, LOWEST_ISOLATED[way]), (9, needed)], causes);
        assert!(short || owed == refusals::writing(&rows, k, q, silent));
        let mut bytes = before.clone();
        tally.hold(write_sheet(&rows, k, q, silent, &mut bytes), owed, || success(needed, 0));
        let after = if owed.is_some() { before } else { [&text::write(&rows, k, q, silent)[..], &before[needed..]].concat() };
        assert_eq!(bytes, after, "causes {causes:?}, way {way}");
    }
    println!("{:?}", tally.0);
    assert!([0, 1, 2, 3, 4, 5, 7, 9, 14].iter().all(|&number| tally.0[number] > 0));
}

#[test]
fn the_order_of_causes() {
    // all causes at once, then one after the other put right
    let mut slots = [GARBAGE; 1];
    let mut call = |rows: &[u64], k, q, silent, want: Outcome| assert_eq!(list(rows, k, q, silent, &mut slots), want);
    call(&[0; 65], 6, 65, u64::MAX, refused((1, 0)));
    call(&[], 6, 65, u64::MAX, refused((1, 0)));
    call(&[3, 4, 0], 6, 65, u64::MAX, refused((2, 0)));
    call(&[3, 4, 0], 2, 65, u64::MAX, refused((3, 0)));
    call(&[3, 4, 0], 2, 3, 1 << 3, refused((7, 0)));
    call(&[2, 4, 8, 0], 2, 3, 1 << 63, refused((7, 0)));
    call(&[2, 4, 8, 0], 2, 3, 0xF, refused((5, 0)));
    call(&[2, 5, 4, 0], 2, 3, 0xF, refused((4, 2)));
    call(&[2, 1, 8 | 16, 4], 2, 3, 0, refused((4, 2)));
    call(&[2, 1, 8, 0], 2, 3, 0, refused((5, 2)));
    call(&[2, 1, 8, 4], 1, 2, 0x10, refused((7, 0)));
    call(&[2, 1, 8, 4], 1, 2, 0, refused((6, 2)));
    call(&[2, 1, 8, 4], 1, 2, 0x1, success(1, 0));
    assert_eq!(slots, [0xC]);
}
