//! Changes of a book, with silent vertices and without: against trying all sets up to five vertices, and in sequences against independent lists up to 64; long
//! lists; a change and the change back; books that were written over; every order of causes. Each time the outcome, all rows and all slots are held to what is
//! owed.
use kadvisk::ffi::Outcome;
use outside::book::{self, Book, Change};
use outside::calls::{list, refused, success};
use outside::cases::{all_graphs, faulty_rows, first_of, graph, many, silent};
use outside::instances::{self, Rng};
use outside::{brute, plain, refusals};
use std::collections::HashMap;

/// Makes the change, where `want` is the list of the changed graph, and holds what comes of it to what is owed.
fn hold(book: &mut Book, change: Change, want: &[u64]) -> Outcome {
    let before = book.clone();
    let (outcome, after) = before.owed(change, |_, _, _, _| want.to_vec());
    let Book { rows, slack, floor, silent, slots } = &before;
    assert_eq!(book.change(change), outcome, "{change:?} of {rows:X?} k={slack} q={floor} silent={silent:X}, {} slots", slots.len());
    assert_eq!(book.rows, after.rows, "{change:?} of {rows:X?} k={slack} q={floor} silent={silent:X}, {} slots", slots.len());
    let wrong = (0..slots.len()).find(|&i| book.slots[i] != after.slots[i]);
    assert_eq!(wrong, None, "the first wrong slot of {} after {change:?} of {rows:X?} k={slack} q={floor} silent={silent:X}", slots.len());
    outcome
}

/// Contents for slots: any words, and masks that might be listed.
fn junk(rng: &mut Rng, room: usize, masks: &[u64]) -> Vec<u64> {
    (0..room).map(|_| if masks.is_empty() || rng.chance(0.5) { rng.word() } else { masks[rng.below(masks.len())] }).collect()
}

/// A book that the library opened, with just as many slots as its list has masks.
fn open(rows: &[u64], k: usize, q: usize, silent: u64) -> Book {
    let m = kadvisk::count(rows, k, q, silent).unwrap();
    let mut slots = vec![0; m];
    assert_eq!(list(rows, k, q, silent, &mut slots), success(m, 0));
    Book { rows: rows.to_vec(), slack: k, floor: q, silent, slots }
}

/// Silent vertices in every second case.
fn now_and_then_silent(rng: &mut Rng, rows: &[u64]) -> u64 {
    match rng.chance(0.5) {
        true => silent(rng, rows.len()),
        false => 0,
    }
}

/// Two vertices, not the same.
fn pair(rng: &mut Rng, n: usize) -> (usize, usize) {
    let (a, b) = (rng.below(n), rng.below(n - 1));
    (a, if b < a { b } else { b + 1 })
}

/// A change that is accepted.
fn some_change(rng: &mut Rng, rows: &[u64]) -> Change {
    let (a, b) = pair(rng, rows.len());
    Change::of(rows, a, b)
}

/// A graph of 8 to 64 vertices, a slack, a floor and silent vertices, such that the list stays short through some changes.
fn short_case(rng: &mut Rng) -> (Vec<u64>, usize, usize, u64) {
    let (n, k, seed) = (if rng.chance(0.3) { 64 } else { rng.between(8, 64) }, rng.between(1, 4), rng.word());
    let p = [0.4, 0.25, 0.12, 0.08][k - 1] * rng.unit();
    let (rows, q) = match rng.below(3) {
        0 => (instances::planted(n, p, 2, 8, 0.9, seed), 2 * k + 1),
        1 => (instances::communities(n, rng.between(4, 8), 0.8, p / 8.0, seed), 2 * k - 1),
        _ => (instances::random(n, p, seed), 2 * k - 1 + rng.below(2)),
    };
    let silent = now_and_then_silent(rng, &rows);
    (rows, k, q, silent)
}

/// No slots, one less than m, just m, and one more.
fn rooms(m: usize) -> Vec<usize> {
    let mut rooms = vec![0, m.saturating_sub(1), m, m + 1];
    rooms.dedup();
    rooms
}

/// Every two numbers up to n named as vertices, the same and n itself among them, to be adjacent and not to be. How many calls there are.
fn hold_every(lists: &HashMap<Vec<u64>, Vec<u64>>, rows: &[u64], k: usize, q: usize, silent: u64, rng: &mut Rng) -> usize {
    let (n, mut calls) = (rows.len(), 0);
    for choice in 0..2 * (n + 1) * (n + 1) {
        let change = Change { a: choice / 2 / (n + 1), b: choice / 2 % (n + 1), adjacent: choice % 2 == 1 };
        let accepted = refusals::change(rows, k, q, silent, change.a, change.b, change.adjacent).is_none();
        let want = if accepted { &lists[&change.graph(rows)] } else { &lists[rows] };
        for room in if accepted { rooms(want.len()) } else { vec![want.len() + 1] } {
            let slots = junk(rng, room, &lists[rows]);
            hold(&mut Book { rows: rows.to_vec(), slack: k, floor: q, silent, slots }, change, want);
            calls += 1;
        }
    }
    calls
}

/// Every graph of n vertices with these silent: every slack up to 3 and every floor. How many calls there are.
fn hold_every_graph(n: usize, silent: u64, rng: &mut Rng) -> usize {
    let mut calls = 0;
    for k in 1..=3 {
        for q in 2 * k - 1..=n.max(2 * k - 1) + 1 {
            let lists = all_graphs(n).map(|rows| (rows.clone(), brute::list(&rows, k, q, silent))).collect();
            calls += all_graphs(n).map(|rows| hold_every(&lists, &rows, k, q, silent, rng)).sum::<usize>();
        }
    }
    calls
}

#[test]
fn every_change_of_every_graph_of_up_to_five_vertices() {
    let mut rng = Rng(5);
    let calls: usize = (1..=5).map(|n| hold_every_graph(n, 0, &mut rng)).sum();
    println!("{calls} changes of every graph of up to 5 vertices against trying all sets");
}

#[test]
fn every_change_of_every_graph_of_up_to_four_vertices_with_every_set_of_them_silent() {
    let mut rng = Rng(6);
    let masks = (1..=4).flat_map(|n| (1..1 << n).map(move |silent| (n, silent)));
    // of five vertices two sets: one vertex, and all but two
    let calls: usize = masks.chain([(5, 0x04), (5, 0x16)]).map(|(n, silent)| hold_every_graph(n, silent, &mut rng)).sum();
    println!("{calls} changes of graphs with silent vertices against trying all sets");
}

#[test]
fn sequences_of_changes_of_up_to_twelve_vertices() {
    let (mut rng, mut tally) = (Rng(12), [0; 14]);
    for _ in 0..many(400) {
        let (rows, k) = (graph(&mut rng, 2, 12), rng.between(1, 4));
        let silent = now_and_then_silent(&mut rng, &rows);
        sequence(&mut rng, open(&rows, k, 2 * k - 1 + k.min(2), silent), brute::list, &mut tally);
    }
    println!("changes against trying all sets: {} made, {} with too few slots", tally[0], tally[6]);
    assert!(tally[0] > 1000 && tally[6] > 100);
}

#[test]
fn sequences_of_changes_of_up_to_64_vertices() {
    let (mut rng, mut tally) = (Rng(64), [0; 14]);
    for _ in 0..many(300) {
        let (rows, k, q, silent) = short_case(&mut rng);
        sequence(&mut rng, open(&rows, k, q, silent), book::list, &mut tally);
    }
    println!("changes against independent lists: {} made, {} with too few slots", tally[0], tally[6]);
    assert!(tally[0] > 1000 && tally[6] > 100);
}

/// Ten changes, one after the other, into one slot less than needed, just enough, or some more. Before each the slots are written over, or left.
fn sequence(rng: &mut Rng, mut book: Book, plain_list: fn(&[u64], usize, usize, u64) -> Vec<u64>, tally: &mut [usize; 14]) {
    assert_eq!(book.slots, plain_list(&book.rows, book.slack, book.floor, book.silent));
    for _ in 0..10 {
        let change = some_change(rng, &book.rows);
        let want = plain_list(&change.graph(&book.rows), book.slack, book.floor, book.silent);
        let room = [want.len().saturating_sub(1), want.len(), want.len() + 1, want.len() + 5][rng.below(4)];
        match rng.chance(0.5) {
            true => book.slots = junk(rng, room, &want),
            false => book.slots.resize(room, rng.word()),
        }
        tally[hold(&mut book, change, &want).number] += 1;
    }
}

#[test]
fn a_change_and_the_change_back() {
    let mut rng = Rng(2);
    for _ in 0..many(1500) {
        let (rows, k, q, silent) = short_case(&mut rng);
        let first = open(&rows, k, q, silent);
        let change = some_change(&mut rng, &rows);
        let room = first.slots.len().max(kadvisk::count(&change.graph(&rows), k, q, silent).unwrap()) + 2;
        let mut book = Book { slots: junk(&mut rng, room, &first.slots), ..first.clone() };
        let beyond = book.slots[room - 1];
        assert_eq!(book.change(change).number, 0);
        assert_ne!(book.rows, rows);
        assert_eq!(book.change(change).number, 13, "it is so already");
        // the vertices the other way round
        let back = Change { a: change.b, b: change.a, ..change.back() };
        assert_eq!(book.change(back), success(first.slots.len(), 0));
        assert_eq!((&book.rows, &book.slots[..first.slots.len()]), (&rows, &first.slots[..]));
        assert_eq!(book.slots[room - 1], beyond);
    }
}

#[test]
fn sets_that_hold_neither_vertex() {
    // such a set is in both lists or in neither
    let (mut rng, mut kept, mut moved) = (Rng(3), 0, 0);
    for _ in 0..many(1500) {
        let (rows, k, q, silent) = short_case(&mut rng);
        let mut book = open(&rows, k, q, silent);
        let old = book.slots.clone();
        let change = some_change(&mut rng, &rows);
        book.slots.resize(kadvisk::count(&change.graph(&rows), k, q, silent).unwrap(), 0);
        assert_eq!(book.change(change), success(book.slots.len(), 0));
        let neither = |masks: &[u64]| -> Vec<u64> { masks.iter().copied().filter(|t| t & plain::mask(&[change.a, change.b]) == 0).collect() };
        assert_eq!(neither(&old), neither(&book.slots), "{change:?} of {rows:X?} k={k} q={q} silent={silent:X}");
        kept += neither(&old).len();
        moved += (old != book.slots) as usize;
    }
    println!("{kept} sets with neither vertex in both lists; {moved} changes of the list");
    assert!(kept > 10_000 && moved > 500);
}

/// Parts of these sizes, adjacent where they are not in one part: at slack 1 the list has as many masks as the product of the sizes.
fn parts(sizes: &[usize]) -> Vec<u64> {
    let part: Vec<usize> = sizes.iter().enumerate().flat_map(|(part, &size)| vec![part; size]).collect();
    let row = |a: usize| plain::mask(&(0..part.len()).filter(|&b| part[a] != part[b]).collect::<Vec<_>>());
    (0..part.len()).map(row).collect()
}

/// Both graphs side by side, with no edge between them.
fn beside(rows: &[u64], others: &[u64]) -> Vec<u64> {
    rows.iter().copied().chain(others.iter().map(|row| row << rows.len())).collect()
}

/// Changes that lead to this graph, of a pair that is adjacent in it and of one that is not, and the changes back, into one slot less than needed, just
/// enough and one more. How many masks the list of the graph has.
fn hold_long(rng: &mut Rng, rows: &[u64], k: usize, q: usize, silent: u64) -> usize {
    let want = book::list(rows, k, q, silent);
    for adjacent in [false, true] {
        let back = loop {
            let change = some_change(rng, rows);
            if change.adjacent != adjacent {
                break change;
            }
        };
        let start = back.graph(rows);
        let first = book::list(&start, k, q, silent);
        for more in [0, 1, 2] {
            let mut book = Book { rows: start.clone(), slack: k, floor: q, silent, slots: junk(rng, want.len() + more - 1, &first) };
            hold(&mut book, back.back(), &want);
            book.rows = rows.to_vec();
            book.slots = junk(rng, first.len() + more - 1, &want);
            hold(&mut book, back, &first);
        }
    }
    want.len()
}

/// Changes to graphs whose lists have so many masks, at slack 1.
fn hold_cliques(rng: &mut Rng, graphs: &[(Vec<u64>, usize)]) {
    for (rows, m) in graphs {
        for _ in 0..many(2) {
            assert_eq!(hold_long(rng, rows, 1, 1, 0), *m);
        }
    }
}

#[test]
fn lists_of_4096_masks_and_about_as_many() {
    let (twos, sixteens) = (parts(&[2; 12]), parts(&[16; 3]));
    let graphs = [
        (parts(&[7, 15, 39]), 4095),
        (sixteens.clone(), 4096),
        (beside(&sixteens, &[0]), 4097),
        (beside(&sixteens, &[0; 2]), 4098),
        (beside(&[0; 40], &twos), 4136),
        (beside(&twos, &twos), 8192),
    ];
    hold_cliques(&mut Rng(4096), &graphs);
}

#[test]
fn lists_as_long_as_the_memory_for_few_candidates() {
    // at slack 1 the library keeps memory for 1,024 masks below 48 vertices, and for 128 below 20
    let (tens, sevens) = (parts(&[2; 10]), parts(&[2; 7]));
    let graphs = [
        (parts(&[3, 11, 31]), 1023),
        (tens.clone(), 1024),
        (beside(&tens, &[0]), 1025),
        (parts(&[2; 12]), 4096),
        (beside(&parts(&[5; 3]), &[0; 2]), 127),
        (sevens.clone(), 128),
        (beside(&sevens, &[0]), 129),
    ];
    hold_cliques(&mut Rng(1024), &graphs);
}

#[test]
fn lists_of_4096_masks_at_slack_2_and_3() {
    // a clique of 2k - 1 vertices beside the graph is one mask more
    let mut rng = Rng(4097);
    for (rows, k) in [(instances::random(48, 0.36, 3685), 2), (instances::random(48, 0.172, 15538), 3)] {
        assert_eq!(hold_long(&mut rng, &rows, k, 2 * k - 1, 0), 4096);
        assert_eq!(hold_long(&mut rng, &beside(&rows, &instances::complete(2 * k - 1)), k, 2 * k - 1, 0), 4097);
        // of which one vertex is silent
        assert_eq!(hold_long(&mut rng, &beside(&rows, &instances::complete(2 * k - 1)), k, 2 * k - 1, 1 << 48), 4096);
    }
}

#[test]
fn lists_of_about_1024_masks_of_14_to_19_vertices_at_slack_4() {
    // below 20 vertices the library keeps memory for 1,024 masks
    let (mut rng, mut short, mut long) = (Rng(256), 0, 0);
    for _ in 0..many(100) {
        let (n, seed) = (rng.between(14, 19), rng.word());
        let m = hold_long(&mut rng, &instances::random(n, 0.5, seed), 4, 7, 0);
        *(if m > 1024 { &mut long } else { &mut short }) += 1;
    }
    println!("changes to {short} lists of up to 1,024 masks and to {long} longer ones, 14 to 19 vertices, k=4 q=7");
    assert!(short > 20 && long > 20);
}

#[test]
fn long_lists() {
    let mut rng = Rng(8);
    for (rows, k, q) in [
        (parts(&[3; 10]), 1, 1),
        (instances::random(64, 0.7, 1), 1, 1),
        (instances::random(64, 0.8, 1), 1, 1),
        (instances::random(64, 0.3, 1), 2, 3),
        (instances::random(64, 0.5, 1), 2, 3),
        (instances::random(64, 0.2, 1), 3, 5),
        (instances::random(64, 0.3, 1), 3, 5),
        (instances::johnson8_2_4(), 3, 5),
        (instances::random(64, 0.2, 1), 4, 7),
    ] {
        let m = hold_long(&mut rng, &rows, k, q, 0);
        println!("changes to a list of {m} masks, k={k} q={q}");
        assert!(m > 4096);
        // some silent vertices
        let silent = (0..rows.len()).filter(|_| rng.chance(0.1)).map(|v| 1 << v).sum();
        let fewer = hold_long(&mut rng, &rows, k, q, silent);
        println!("changes to a list of {fewer} masks, k={k} q={q} silent={silent:X}");
        assert!(fewer > 1000 && (fewer < m || q == 1));
    }
}

#[test]
fn a_list_that_crosses_4096_masks() {
    // parts of sixteen and a single vertex; the slots are left as they are from one change to the next
    let rows = beside(&parts(&[16; 3]), &[0]);
    let mut book = open(&rows, 1, 1, 0);
    let first = book.slots.clone();
    assert_eq!(first, book::list(&rows, 1, 1, 0));
    for (a, b, m) in [(0, 1, 3841), (0, 16, 4081), (48, 5, 4097), (17, 16, 3841)] {
        let change = Change::of(&rows, a, b);
        assert_eq!(hold(&mut book, change, &book::list(&change.graph(&rows), 1, 1, 0)), success(m, 0));
        assert_eq!(hold(&mut book, change.back(), &first), success(4097, 0));
    }
}

#[test]
fn rows_that_were_written_over() {
    // each single bit of the rows turned: of the vertex itself, of n or above, or of an edge, which is then one-way; also at the pair that is named
    for (rows, k, q) in [(instances::ring(5), 2, 3), (instances::random(63, 0.1, 1), 2, 3), (instances::random(64, 0.1, 1), 1, 1)] {
        let whole = open(&rows, k, q, 0x05);
        for (v, w) in (0..rows.len()).flat_map(|v| (0..64).map(move |w| (v, w))) {
            let mut book = whole.clone();
            book.rows[v] ^= 1 << w;
            let number = if w == v || w >= rows.len() { 4 } else { 5 };
            for (a, b, adjacent) in [(0, 2, true), (0, 2, false), (v, w, true), (v, w, false), (w, v, true), (w, v, false), (v, v, true), (64, v, true)] {
                assert_eq!(hold(&mut book, Change { a, b, adjacent }, &[]).number, number);
            }
            book.rows[v] ^= 1 << w;
            assert_eq!(book, whole);
        }
    }
}

#[test]
fn a_slack_and_a_floor_that_were_written_over() {
    let mut book = open(&instances::ring(5), 2, 3, 0);
    let words = [0, 1, 2, 3, 4, 5, 6, 7, 8, 9, 10, 11, 32, 63, 64, 65, 255, 1 << 63, usize::MAX];
    for (k, q) in words.into_iter().flat_map(|k| words.map(|q| (k, q))) {
        let change = Change::of(&book.rows, 0, 2);
        (book.slack, book.floor) = (k, q);
        let accepted = refusals::request(&book.rows, k, q, 0).is_none();
        book.slots.resize(8, 9);
        hold(&mut book, change, &if accepted { brute::list(&change.graph(&instances::ring(5)), k, q, 0) } else { vec![] });
        book.rows = instances::ring(5);
    }
}

#[test]
fn silent_vertices_that_were_written_over() {
    // every set of the ring, each single vertex beyond it, and a list of others
    let mut book = open(&instances::ring(5), 2, 3, 0);
    let masks = (0..32).chain((5..64).map(|v| 1 << v)).chain([0x3F, 0xFFE0, u64::MAX, u64::MAX << 5, 0x8000_0000_0000_001F]);
    for silent in masks {
        for (a, b, number) in [(0, 2, 0), (2, 2, 12), (0, 5, 7), (0, 1, 13)] {
            let (rows, change) = (instances::ring(5), Change { a, b, adjacent: true });
            book.silent = silent;
            book.slots.resize(8, 9);
            let want = if silent < 32 && number == 0 { brute::list(&change.graph(&rows), 2, 3, silent) } else { vec![] };
            assert_eq!(hold(&mut book, change, &want).number, if silent < 32 { number } else { 7 });
            book.rows = rows;
        }
    }
}

const CAUSES: [usize; 10] = [1, 2, 3, 7, 4, 5, 7, 12, 13, 6];

/// Two numbers that are vertices or not, and the same or not.
fn named(outside: bool, same: bool, n: usize, way: usize) -> (usize, usize) {
    let far = [n, n + 1, n.max(64), usize::MAX][way];
    match (outside, same) {
        (true, true) => (far, far),
        (true, false) => [(0, far), (far, 0), (far, n + 7), (1, far)][way],
        (false, true) => [(0, 0), (1, 1), (4, 4), (3, 3)][way],
        (false, false) => [(0, 1), (1, 0), (0, 4), (4, 0)][way],
    }
}

/// A book and a change with the chosen ones of the causes, in one of four ways. But for the causes the graph has five vertices and the edge 0-4, and in two
/// ways a silent one.
fn faulty(causes: [bool; 10], empty: bool, way: usize) -> (Book, Change) {
    let [vertices, slack, floor, silent, row, one_way, outside, same, unchanged, short] = causes;
    let mut rows = faulty_rows([vertices, row, one_way], empty);
    if !rows.is_empty() {
        rows[0] |= 1 << 4;
        rows[4] |= 1;
    }
    let (a, b) = named(outside, same, rows.len(), way);
    let stands = a < rows.len() && b < 64 && plain::adjacent(&rows, a, b);
    let slack = if slack { [0, 6, 1 << 63, usize::MAX][way] } else { 1 };
    let floor = if floor { [0, 65, 1 << 63, usize::MAX][way] } else { 1 };
    let silent = if silent { [1 << 5, 1 << 63, u64::MAX, 0x30][way] } else { [0, 0x04, 0, 0x10][way] };
    let slots = (0..if short { way.min(2) } else { 9 }).map(|i| 0x0123_4567_89AB_CDEF + i as u64).collect();
    (Book { rows, slack, floor, silent, slots }, Change { a, b, adjacent: stands == unchanged })
}

#[test]
fn the_order_of_causes() {
    // of[i][i]: cause i was told and held alone; of[i][j]: it was told, and j, which comes later, held too
    let mut of = [[0; 10]; 10];
    for choice in 0..1usize << 10 {
        let causes: [bool; 10] = std::array::from_fn(|i| choice >> i & 1 == 1);
        for (empty, way) in [(false, 0), (false, 1), (false, 2), (false, 3), (true, 0), (true, 3)] {
            let (mut book, change) = faulty(causes, empty, way);
            let want = if causes[..9].contains(&true) { vec![] } else { brute::list(&change.graph(&book.rows), 1, 1, book.silent) };
            let owed = first_of([(1, 0), (2, 0), (3, 0), (7, 0), (4, 3), (5, 2), (7, 0), (12, 0), (13, 0), (6, want.len())], causes);
            let outcome = hold(&mut book, change, &want);
            assert_eq!(outcome, owed.map_or(success(want.len(), 0), refused), "causes {causes:?}, way {way}");
            if let Some(first) = causes.iter().position(|&holds| holds).filter(|_| !empty) {
                assert_eq!(outcome.number, CAUSES[first]);
                (first..10).filter(|&later| causes[later] && (later > first || choice.count_ones() == 1)).for_each(|later| of[first][later] += 1);
            }
        }
    }
    CAUSES.iter().zip(of).for_each(|(number, counts)| println!("{number:2} told, alone and beside later causes: {counts:?}"));
    assert!((0..10).all(|first| (first..10).all(|later| of[first][later] > 0)), "{of:?}");
}
