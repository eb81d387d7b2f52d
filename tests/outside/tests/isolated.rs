//! Vertices that nobody linked: a graph in which a row is 0 is neither read from a sheet nor written to one (14, with the lowest such row), and every call on
//! rows takes it.
use outside::book::{self, Book, Change};
use outside::calls::*;
use outside::cases::{all_graphs, isolate, linked, many, silent, subset};
use outside::instances::{self, Rng};
use outside::plain::{self, full};
use outside::refusals::{self, when, MOST_SLACK};
use outside::{brute, hold, text};

const ROW: u64 = 0x5555_0000_AAAA_FFFF;
const BYTE: u8 = 0xA5;

/// A slack, a floor and silent vertices.
type Request = (usize, usize, u64);

fn request(rng: &mut Rng, n: usize) -> Request {
    let k = rng.between(1, MOST_SLACK);
    (k, rng.between(2 * k - 1, 64), silent(rng, n))
}

fn lowest(rows: &[u64]) -> Option<usize> {
    rows.iter().position(|&row| row == 0)
}

/// Holds reading and writing to what they owe a valid graph with this lowest row that is 0, or none: with no room, too little, just enough, and more.
fn hold_sheet(rows: &[u64], (k, q, silent): Request, lowest: Option<usize>) {
    let (n, sheet, isolated) = (rows.len(), text::write(rows, k, q, silent), lowest.map(|a| (14, a)));
    for room in [0, n - 1, n, n + 2] {
        let (owed, mut back) = (isolated.or(when(room < n, 9, n)), vec![ROW; room]);
        assert_eq!(read_sheet(&sheet, &mut back), owed.map_or(read(n, k, q, silent), unread), "{rows:X?}");
        let stored = if owed.is_none() { rows } else { &[] };
        assert_eq!(back[..stored.len()], *stored, "{rows:X?}");
        assert!(back[stored.len()..].iter().all(|&row| row == ROW), "{rows:X?}");
    }
    let needed = 24 + 17 * n;
    for room in [0, 24, needed - 1, needed, needed + 2] {
        let (owed, mut bytes) = (isolated.or(when(room < needed, 9, needed)), vec![BYTE; room]);
        assert_eq!(write_sheet(rows, k, q, silent, &mut bytes), owed.map_or(success(needed, 0), refused), "{rows:X?}");
        let written = if owed.is_none() { &sheet[..] } else { &[] };
        assert_eq!(bytes[..written.len()], *written, "{rows:X?}");
        assert!(bytes[written.len()..].iter().all(|&byte| byte == BYTE), "{rows:X?}");
    }
}

#[test]
fn each_vertex_each_pair_and_all_of_up_to_64() {
    let (mut rng, mut cases) = (Rng(70), 0);
    for n in 1..=64 {
        let complete = instances::complete(n);
        for (a, b) in (0..n).flat_map(|a| (a..n).map(move |b| (a, b))) {
            let mut rows = complete.clone();
            isolate(&mut rows, 1 << a | 1 << b);
            // one vertex that is left has no neighbour either
            let left = if a == b { n - 1 } else { n - 2 };
            hold_sheet(&rows, request(&mut rng, n), Some(if left < 2 { 0 } else { a }));
            cases += 1;
        }
        hold_sheet(&vec![0; n], request(&mut rng, n), Some(0));
        if n > 1 {
            hold_sheet(&complete, request(&mut rng, n), None);
        }
    }
    println!("{cases} graphs of up to 64 vertices, all others adjacent");
}

#[test]
fn random_graphs_with_some_vertices_isolated() {
    let (mut rng, mut declined) = (Rng(71), 0);
    let cases = many(2000);
    for case in 0..cases {
        let mut rows = linked(&mut rng, 2, 64);
        let n = rows.len();
        match case % 4 {
            0 => (),
            1 => isolate(&mut rows, 1 << rng.below(n)),
            _ => isolate(&mut rows, subset(&mut rng, n) & subset(&mut rng, n)),
        }
        declined += lowest(&rows).is_some() as usize;
        hold_sheet(&rows, request(&mut rng, n), lowest(&rows));
    }
    println!("{declined} of {cases} graphs are declined");
    assert!(declined > cases / 4 && declined < cases * 3 / 4);
}

#[test]
fn a_sheet_of_one_vertex_is_always_declined() {
    for (k, silent) in (1..=MOST_SLACK).flat_map(|k| [(k, 0), (k, 1)]) {
        (2 * k - 1..=64).for_each(|q| hold_sheet(&[0], (k, q, silent), Some(0)));
    }
    // whatever its numbers, its silent vertices and its row are
    let mut numbers = [0; 15];
    for (k, q) in (0..256).flat_map(|k: usize| [0, 1, k, (2 * k).clamp(1, 256) - 1, 64, 65, 255].map(|q| (k, q))) {
        for (row, silent) in [0, 1, 2, 1 << 63, u64::MAX].into_iter().flat_map(|row| [(row, 0), (row, 1), (row, 2), (row, u64::MAX)]) {
            let owed = refusals::writing(&[row], k, q, silent).expect("it is declined");
            let (mut back, mut bytes) = ([ROW], [BYTE; 41]);
            assert_eq!(read_sheet(&text::write(&[row], k, q, silent), &mut back), unread(owed), "k={k} q={q} silent={silent:X} row={row:X}");
            assert_eq!(write_sheet(&[row], k, q, silent, &mut bytes), refused(owed), "k={k} q={q} silent={silent:X} row={row:X}");
            assert_eq!((back, bytes), ([ROW], [BYTE; 41]));
            numbers[owed.0] += 1;
        }
    }
    println!("outcomes by number: {numbers:?}");
    assert!((0..15).all(|number| (numbers[number] > 10) == [2, 3, 4, 7, 14].contains(&number)));
}

#[test]
fn every_graph_of_up_to_five_vertices() {
    let mut declined = [0; 6];
    for rows in (1..=5).flat_map(all_graphs) {
        let n = rows.len();
        for k in 1..=MOST_SLACK {
            for (q, silent) in [2 * k - 1, 2 * k, 64].into_iter().flat_map(|q| [(q, 0), (q, 1), (q, full(n))]) {
                hold_sheet(&rows, (k, q, silent), lowest(&rows));
            }
        }
        declined[n] += lowest(&rows).is_some() as usize;
    }
    // of 1, 2, 8, 64 and 1,024 graphs; in 0, 1, 4, 41 and 768 each vertex has a neighbour
    assert_eq!(declined, [0, 1, 1, 4, 23, 256]);
}

/// Every graph of up to five vertices in which one has no neighbour.
fn unlinked_graphs() -> impl Iterator<Item = Vec<u64>> {
    (1..=5).flat_map(all_graphs).filter(|rows| rows.contains(&0))
}

#[test]
fn the_list_takes_such_rows() {
    let mut alone = 0;
    for rows in unlinked_graphs() {
        let n = rows.len();
        for k in 1..=MOST_SLACK {
            for (q, silent) in (2 * k - 1..=2 * k + 1).flat_map(|q| (0..1u64 << n).map(move |silent| (q, silent))) {
                let want = brute::list(&rows, k, q, silent);
                hold::list(&rows, k, q, silent, &want);
                hold::list_with(&rows, k, q, silent, 0, &want);
                hold::list_with(&rows, k, q, silent, 127, &want);
                // such a vertex is listed by itself alone, and that at slack and floor 1
                for a in (0..n).filter(|&a| rows[a] == 0) {
                    let listed: Vec<u64> = want.iter().copied().filter(|s| s >> a & 1 == 1).collect();
                    assert_eq!(listed, if q == 1 && silent >> a & 1 == 0 { vec![1 << a] } else { vec![] });
                    alone += listed.len();
                }
            }
        }
    }
    println!("{alone} vertices are listed by themselves");
    assert!(alone > 1000);
}

#[test]
fn the_list_takes_such_rows_up_to_64() {
    let (mut rng, mut masks) = (Rng(73), 0);
    for _ in 0..many(200) {
        let (n, k) = (rng.between(17, 64), rng.between(1, MOST_SLACK));
        let mut rows = instances::random(n, [0.6, 0.45, 0.3, 0.2, 0.13][k - 1] * rng.unit(), rng.word());
        isolate(&mut rows, subset(&mut rng, n) & subset(&mut rng, n) | 1 << rng.below(n));
        let (q, silent) = (2 * k - 1 + rng.below(3), silent(&mut rng, n));
        let want = book::list(&rows, k, q, silent);
        hold::list(&rows, k, q, silent, &want);
        hold_sheet(&rows, (k, q, silent), lowest(&rows));
        masks += want.len();
    }
    assert!(masks > 1000, "{masks}");
    // no edge at all: each vertex by itself at slack and floor 1, and else nothing
    for n in 1..=64 {
        let singles: Vec<u64> = (0..n).map(|v| 1 << v).collect();
        hold::list(&vec![0; n], 1, 1, 0, &singles);
        hold::list(&vec![0; n], 1, 1, 1, &singles[1..]);
        hold::list(&vec![0; n], 1, 2, 0, &[]);
        (2..=MOST_SLACK).for_each(|k| hold::list(&vec![0; n], k, 2 * k - 1, 0, &[]));
    }
}

#[test]
fn the_other_questions_take_such_rows() {
    let mut bounds = 0;
    for rows in unlinked_graphs() {
        let n = rows.len();
        for v in 0..n {
            assert_eq!(reach(&rows, v), success(0, plain::reach(&rows, v)));
        }
        for s in 0..1 << n {
            assert_eq!(looseness(&rows, s), success(0, plain::looseness(&rows, s) as u64));
        }
        for (k, s) in (1..=MOST_SLACK).flat_map(|k| (0..1 << n).map(move |s| (k, s))) {
            assert_eq!(is_maximal(&rows, k, s), success(0, plain::is_maximal_by_all(&rows, k, s) as u64));
            let best = || outside::largest::by_all_sets(&rows, k, s);
            assert_eq!(largest(&rows, k, s), refusals::largest(&rows, k, s).map_or_else(|| success(best().0, best().1), refused));
            for (c, v) in [full(n) & !s, full(n)].into_iter().flat_map(|c| (0..n).map(move |v| (c, v))) {
                let owed = refusals::bound(&rows, k, s, c, v);
                assert_eq!(first_bound(&rows, k, s, c, v), owed.map_or_else(|| success(0, plain::first_bound(&rows, k, s, c, v) as u64), refused));
                assert_eq!(second_bound(&rows, k, s, c, v), owed.map_or_else(|| success(0, plain::second_bound(&rows, k, s, c, v) as u64), refused));
                bounds += owed.is_none() as usize;
            }
        }
        for (k, q) in (1..=MOST_SLACK).flat_map(|k| (2 * k - 1..=2 * k + 2).map(move |q| (k, q))) {
            assert_eq!(core(&rows, k, q), cored(plain::passes(&rows, q - k)));
        }
    }
    assert!(bounds > 1000, "{bounds}");
}

#[test]
fn a_change_takes_such_rows_and_may_make_them() {
    // a path of three vertices, of which the edges go and come back
    let mut book = Book { rows: vec![2, 5, 2], slack: 1, floor: 1, silent: 0, slots: vec![ROW; 4] };
    hold_sheet(&book.rows, (1, 1, 0), None);
    for (a, b, adjacent, rows, m, slots, lowest) in [
        (1, 2, false, [2, 1, 0], 2, [3, 4, ROW, ROW], Some(2)),
        (0, 1, false, [0, 0, 0], 3, [1, 2, 4, ROW], Some(0)),
        (2, 1, true, [0, 4, 2], 2, [1, 6, 4, ROW], Some(0)),
        (1, 0, true, [2, 5, 2], 2, [3, 6, 4, ROW], None),
    ] {
        assert_eq!(book.change(Change { a, b, adjacent }), success(m, 0));
        assert_eq!((&book.rows[..], &book.slots[..]), (&rows[..], &slots[..]));
        hold_sheet(&rows, (1, 1, 0), lowest);
    }
    // every pair of each small graph
    for rows in unlinked_graphs() {
        for (a, b) in (0..rows.len()).flat_map(|a| (0..a).map(move |b| (a, b))) {
            let (change, mut book) = (Change::of(&rows, a, b), Book { rows: rows.clone(), slack: 1, floor: 1, silent: 0, slots: vec![ROW; 10] });
            let (owed, after) = book.owed(change, brute::list);
            assert_eq!((owed.number, book.change(change)), (0, owed));
            assert_eq!(book, after);
        }
    }
}

#[test]
fn a_season_in_which_vertices_lose_their_last_edge() {
    let (mut rng, mut lost, mut found) = (Rng(75), 0, 0);
    for _ in 0..many(100) {
        let rows = linked(&mut rng, 3, 7);
        let (n, (k, q, silent)) = (rows.len(), request(&mut rng, 3));
        let mut book = Book { rows, slack: k, floor: q.min(2 * k), silent, slots: vec![ROW; 130] };
        for _ in 0..30 {
            let before = lowest(&book.rows);
            let a = rng.below(n);
            let change = Change::of(&book.rows, a, (a + rng.between(1, n - 1)) % n);
            let (owed, after) = book.owed(change, brute::list);
            assert_eq!((owed.number, book.change(change)), (0, owed));
            assert_eq!(book, after);
            hold_sheet(&book.rows, (k, q, silent), lowest(&book.rows));
            lost += (before.is_none() && lowest(&book.rows).is_some()) as usize;
            found += (before.is_some() && lowest(&book.rows).is_none()) as usize;
        }
    }
    println!("{lost} changes after which the sheet is declined, {found} after which it is written again");
    assert!(lost > 50 && found > 50);
}
