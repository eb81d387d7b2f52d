//! The safe functions: what they make of outcomes and refusals.
use kadvisk::{Book, Core, Cuts, Heading, Largest, Refusal};

const RING: [u64; 5] = [0x12, 0x05, 0x0A, 0x14, 0x09];
const LIST: [u64; 5] = [0x07, 0x0E, 0x13, 0x19, 0x1C];
/// The ring in which 0 and 2 are adjacent, and its list.
const CHORD: [u64; 5] = [0x16, 0x05, 0x0B, 0x14, 0x09];
const CHORD_LIST: [u64; 4] = [0x07, 0x0E, 0x13, 0x1D];

#[test]
fn questions() {
    assert_eq!(kadvisk::looseness(&RING, 0x07), Ok(2));
    assert_eq!(kadvisk::looseness(&RING, 0), Ok(0));
    assert_eq!(kadvisk::looseness(&[0; 64], u64::MAX), Ok(64));
    assert_eq!(kadvisk::looseness(&RING, 0x20), Err(Refusal::Outside));
    assert_eq!(kadvisk::is_maximal(&RING, 2, 0x07), Ok(true));
    assert_eq!(kadvisk::is_maximal(&RING, 2, 0x03), Ok(false));
    assert_eq!(kadvisk::core(&RING, 2, 4), Ok(Core { mask: 0x1F, passes: 1 }));
    assert_eq!(kadvisk::core(&RING, 2, 5), Ok(Core { mask: 0, passes: 2 }));
    assert_eq!(kadvisk::core(&RING, 2, 2), Err(Refusal::Floor));
    assert_eq!(kadvisk::core(&RING, 5, 9), Ok(Core { mask: 0, passes: 2 }));
    assert_eq!(kadvisk::core(&RING, 5, 8), Err(Refusal::Floor));
    assert_eq!(kadvisk::core(&RING, 6, 11), Err(Refusal::Slack));
    assert_eq!(kadvisk::core(&[0x12, 0x05, 0x0A, 0x14, 0x08], 2, 4), Err(Refusal::OneWay(0)));
    assert_eq!(kadvisk::reach(&[2, 5, 10, 4], 0), Ok(7));
    let seven = [0x0E, 0x7D, 0x7B, 0x77, 0x0E, 0x0E, 0x0E];
    assert_eq!(kadvisk::first_bound(&seven, 2, 0x07, 0x78, 3), Ok(8));
    assert_eq!(kadvisk::second_bound(&seven, 2, 0x07, 0x78, 3), Ok(6));
}

#[test]
fn lists() {
    let mut slots = [9; 7];
    assert_eq!(kadvisk::list(&RING, 2, 3, 0, &mut slots), Ok(5));
    assert_eq!(slots, [0x07, 0x0E, 0x13, 0x19, 0x1C, 9, 9]);
    assert_eq!(kadvisk::count(&RING, 2, 3, 0), Ok(5));
    assert_eq!(kadvisk::count(&RING, 2, 6, 0), Ok(0));
    assert_eq!(kadvisk::list_all(&RING, 2, 3, 0), Ok(LIST.to_vec()));
    let off = Cuts { core: false, reach: false, pairs: false, second: false, parted: false, extension: false, pivot: false };
    assert_eq!(kadvisk::list_with(&RING, 2, 3, 0, off, &mut slots), Ok(5));
    assert_eq!(slots[..5], LIST);
    assert_eq!(kadvisk::list_with(&RING, 2, 3, 0, Cuts::default(), &mut slots[..4]), Err(Refusal::Slots(5)));
    assert_eq!(
        (off.flags(), Cuts::default().flags(), Cuts { second: true, ..off }.flags(), Cuts { pivot: true, ..off }.flags()),
        (0, 1 + 2 + 4 + 16 + 32 + 64, 8, 64)
    );
    assert_eq!(slots, [0, 0, 0, 0, 0x1C, 9, 9]);
}

#[test]
fn silent_vertices() {
    let (mut rows, mut slots) = (RING, [9; 5]);
    assert_eq!(kadvisk::list(&RING, 2, 3, 0x08, &mut slots), Ok(2));
    assert_eq!(slots, [0x07, 0x13, 9, 9, 9]);
    assert_eq!(kadvisk::count(&RING, 2, 3, 0x01), Ok(2));
    assert_eq!(kadvisk::list_all(&RING, 2, 3, 0x1C), Ok(vec![]));
    assert_eq!(kadvisk::list_with(&RING, 2, 3, 0x02, Cuts::default(), &mut slots), Ok(2));
    assert_eq!(slots, [0x19, 0x1C, 9, 9, 9]);
    assert_eq!(kadvisk::list_with(&RING, 2, 3, 0x20, Cuts::default(), &mut slots), Err(Refusal::Outside));
    assert_eq!(kadvisk::change(&mut rows, 2, 3, 0x20, 9, 9, true, &mut slots), Err(Refusal::Outside));
    assert_eq!(kadvisk::write_sheet(&RING, 2, 3, 0x20, &mut []), Err(Refusal::Outside));
    assert_eq!(Book::open(&mut rows, 2, 3, 0x20, &mut slots).err(), Some(Refusal::Outside));
    assert_eq!((rows, slots), (RING, [0x19, 0x1C, 9, 9, 9]));
    // a book keeps its silent vertices
    let mut book = Book::open(&mut rows, 2, 3, 0x08, &mut slots).unwrap();
    assert_eq!(book.list(), [0x07, 0x13]);
    assert_eq!(book.change(0, 2, true), Ok(3));
    assert_eq!((book.rows(), book.list()), (&CHORD[..], &[0x07, 0x13, 0x1D][..]));
    assert_eq!(book.change(0, 2, false), Ok(2));
    assert_eq!((rows, slots), (RING, [0x07, 0x13, 0x1D, 9, 9]));
}

#[test]
fn changes() {
    let (mut rows, mut slots) = (RING, [9; 6]);
    assert_eq!(kadvisk::change(&mut rows, 2, 3, 0, 2, 0, true, &mut slots), Ok(4));
    assert_eq!((rows, slots), (CHORD, [0x07, 0x0E, 0x13, 0x1D, 9, 9]));
    assert_eq!(kadvisk::change(&mut rows, 2, 3, 0, 0, 2, true, &mut slots), Err(Refusal::Unchanged));
    assert_eq!(kadvisk::change(&mut rows, 2, 3, 0, 0, 2, false, &mut slots[..4]), Err(Refusal::Slots(5)));
    assert_eq!((rows, slots), (CHORD, [0x07, 0x0E, 0x13, 0x1D, 9, 9]));
    assert_eq!(kadvisk::change(&mut rows, 2, 3, 0, 0, 2, false, &mut slots), Ok(5));
    assert_eq!((rows, slots), (RING, [0x07, 0x0E, 0x13, 0x19, 0x1C, 9]));
}

#[test]
fn books() {
    let (mut rows, mut slots) = (RING, [9; 5]);
    let mut book = Book::open(&mut rows, 2, 3, 0, &mut slots).unwrap();
    assert_eq!((book.rows(), book.list()), (&RING[..], &LIST[..]));
    assert_eq!(book.change(0, 2, true), Ok(4));
    assert_eq!((book.rows(), book.list()), (&CHORD[..], &CHORD_LIST[..]));
    for (a, b, adjacent, refusal) in
        [(0, 5, true, Refusal::Outside), (5, 5, true, Refusal::Outside), (3, 3, false, Refusal::Loop), (2, 0, true, Refusal::Unchanged)]
    {
        assert_eq!(book.change(a, b, adjacent), Err(refusal));
        assert_eq!((book.rows(), book.list()), (&CHORD[..], &CHORD_LIST[..]));
    }
    assert_eq!(book.change(2, 0, false), Ok(5));
    assert_eq!((book.rows(), book.list()), (&RING[..], &LIST[..]));
    assert_eq!((rows, slots), (RING, LIST));
}

#[test]
fn a_book_with_too_few_slots() {
    let (mut rows, mut slots) = (CHORD, [9; 4]);
    let mut book = Book::open(&mut rows, 2, 3, 0, &mut slots).unwrap();
    assert_eq!(book.change(0, 2, false), Err(Refusal::Slots(5)));
    assert_eq!((book.rows(), book.list()), (&CHORD[..], &CHORD_LIST[..]));
    assert_eq!(Book::open(&mut rows, 2, 3, 0, &mut slots[..3]).err(), Some(Refusal::Slots(4)));
    assert_eq!((rows, slots), (CHORD, [0, 0, 0, 0x1D]));
    rows[1] |= 1 << 1;
    assert_eq!(Book::open(&mut rows, 2, 3, 0, &mut slots).err(), Some(Refusal::Row(1)));
    assert_eq!(slots, [0, 0, 0, 0x1D]);
}

#[test]
fn largest() {
    assert_eq!(kadvisk::largest(&RING, 2, 0), Ok(Largest { size: 3, mask: 0x07 }));
    assert_eq!(kadvisk::largest(&RING, 2, 0x08), Ok(Largest { size: 3, mask: 0x0E }));
    assert_eq!(kadvisk::largest(&RING, 2, 0x14), Ok(Largest { size: 3, mask: 0x1C }));
    assert_eq!(kadvisk::largest(&RING, 1, 0x10), Ok(Largest { size: 2, mask: 0x11 }));
    assert_eq!(kadvisk::largest(&RING, 3, 0x1F), Ok(Largest { size: 5, mask: 0x1F }));
    assert_eq!(kadvisk::largest(&RING, 2, 0x20), Err(Refusal::Outside));
}

#[test]
fn sheets() {
    let mut text = [b'.'; 117];
    assert_eq!(kadvisk::write_sheet(&RING, 2, 3, 0x10, &mut text), Ok(109));
    assert_eq!(&text[..41], b"050203\n0000000000000010\n0000000000000012\n");
    assert_eq!(text[109..], [b'.'; 8]);
    let mut rows = [7; 6];
    assert_eq!(kadvisk::read_sheet(&text[..109], &mut rows), Ok(Heading { vertices: 5, slack: 2, floor: 3, silent: 0x10 }));
    assert_eq!(rows, [0x12, 0x05, 0x0A, 0x14, 0x09, 7]);
}

#[test]
fn a_vertex_that_nobody_linked() {
    // vertices 5 and 6 beside the ring
    let rows = [0x12, 0x05, 0x0A, 0x14, 0x09, 0, 0];
    let mut text = [b'.'; 143];
    assert_eq!(kadvisk::write_sheet(&rows, 2, 3, 0x10, &mut text), Err(Refusal::Isolated(5)));
    assert_eq!(kadvisk::write_sheet(&rows, 2, 3, 0x10, &mut []), Err(Refusal::Isolated(5)));
    assert_eq!(kadvisk::write_sheet(&rows[6..], 1, 1, 0, &mut text), Err(Refusal::Isolated(0)));
    assert_eq!(text, [b'.'; 143]);
    let lines: String = rows.iter().map(|row| format!("{row:016X}\n")).collect();
    let sheet = format!("070203\n0000000000000010\n{lines}");
    let mut back = [7; 7];
    assert_eq!(kadvisk::read_sheet(sheet.as_bytes(), &mut back), Err(Refusal::Isolated(5)));
    assert_eq!(kadvisk::read_sheet(sheet.as_bytes(), &mut back[..2]), Err(Refusal::Isolated(5)));
    assert_eq!(back, [7; 7]);
    // the calls on rows take them
    assert_eq!(kadvisk::list_all(&rows, 2, 3, 0), Ok(LIST.to_vec()));
    assert_eq!(kadvisk::list_all(&rows, 1, 1, 0), Ok(vec![0x03, 0x06, 0x0C, 0x11, 0x18, 0x20, 0x40]));
    assert_eq!(kadvisk::looseness(&rows, 0x61), Ok(3));
    assert_eq!(kadvisk::largest(&rows, 2, 0x20), Ok(Largest { size: 2, mask: 0x21 }));
    assert_eq!(kadvisk::core(&rows, 2, 3), Ok(Core { mask: 0x1F, passes: 2 }));
    assert_eq!(kadvisk::reach(&rows, 6), Ok(0x40));
    // once both are linked the sheet is written
    let (mut rows, mut slots) = (rows, [0; 8]);
    let mut book = Book::open(&mut rows, 2, 3, 0, &mut slots).unwrap();
    assert_eq!(book.change(5, 6, true), Ok(5));
    assert_eq!(kadvisk::write_sheet(book.rows(), 2, 3, 0x10, &mut text), Ok(143));
    assert_eq!(kadvisk::read_sheet(&text, &mut back), Ok(Heading { vertices: 7, slack: 2, floor: 3, silent: 0x10 }));
    assert_eq!(back, rows);
}

#[test]
fn graphs_in_the_dimacs_form() {
    let ring = b"c five vertices in a ring\np edge 5 5\ne 1 2\ne 2 3\ne 3 4\ne 4 5\ne 5 1\n";
    let mut rows = [7; 6];
    assert_eq!(kadvisk::read_dimacs(ring, &mut rows), Ok(5));
    assert_eq!(rows, [0x12, 0x05, 0x0A, 0x14, 0x09, 7]);
    // a refusal leaves the rows
    let mut rows = [7; 5];
    for (text, refusal) in [
        (&b""[..], Refusal::DimacsLine(1)),
        (b"c no graph\n", Refusal::DimacsLine(2)),
        (b"p edge 5 1\ne 1 6\n", Refusal::DimacsLine(2)),
        (b"p edge 0 0\n", Refusal::Vertices),
        (b"p edge 5 2\ne 1 2\n", Refusal::EdgeCount),
        (b"p edge 6 1\ne 1 2\n", Refusal::Room(6)),
    ] {
        assert_eq!(kadvisk::read_dimacs(text, &mut rows), Err(refusal));
        assert_eq!(rows, [7; 5]);
    }
    // a vertex without an edge is taken
    assert_eq!(kadvisk::read_dimacs(b"p edge 1 0\n", &mut rows), Ok(1));
    assert_eq!(rows, [0, 7, 7, 7, 7]);
}

#[test]
fn refusals() {
    let mut text = [0; 8];
    for (answer, refusal) in [
        (kadvisk::count(&[], 1, 1, 0), Refusal::Vertices),
        (kadvisk::count(&RING, 0, 1, 0), Refusal::Slack),
        (kadvisk::count(&RING, 2, 2, 0), Refusal::Floor),
        (kadvisk::count(&[0, 0, 4], 1, 1, 0), Refusal::Row(2)),
        (kadvisk::count(&[0, 1, 0], 1, 1, 0), Refusal::OneWay(1)),
        (kadvisk::list(&RING, 2, 3, 0, &mut []), Refusal::Slots(5)),
        (kadvisk::reach(&RING, 5).map(|_| 0), Refusal::Outside),
        (kadvisk::count(&RING, 2, 3, 1 << 63), Refusal::Outside),
        (kadvisk::read_sheet(b"050203\n", &mut []).map(|_| 0), Refusal::Line(2)),
        (kadvisk::write_sheet(&RING, 2, 3, 0x10, &mut text), Refusal::Room(109)),
        (kadvisk::first_bound(&RING, 2, 1, 1, 0), Refusal::Bound),
        (kadvisk::largest(&RING, 1, 0x05).map(|_| 0), Refusal::Forced),
        (kadvisk::change(&mut RING.clone(), 2, 3, 0, 0, 0, true, &mut []), Refusal::Loop),
        (kadvisk::change(&mut RING.clone(), 2, 3, 0, 0, 1, true, &mut []), Refusal::Unchanged),
        (kadvisk::write_sheet(&[2, 1, 0, 0], 1, 1, 0, &mut text), Refusal::Isolated(2)),
        (kadvisk::read_dimacs(b"p edge 65 0\n", &mut []), Refusal::Vertices),
        (kadvisk::read_dimacs(b"p edge 2 0\n", &mut [0]), Refusal::Room(2)),
    ] {
        assert_eq!(answer, Err(refusal));
        assert_eq!(Refusal::new(refusal.number(), refusal.value()), Some(refusal));
        assert!(!refusal.to_string().is_empty());
    }
    // 15 and 16 are told by reading alone
    for (answer, refusal, number) in [
        (kadvisk::read_dimacs(b"p edge 2 1\ne 1 1\n", &mut []), Refusal::DimacsLine(2), 15),
        (kadvisk::read_dimacs(b"p edge 2 1\n", &mut []), Refusal::EdgeCount, 16),
    ] {
        assert_eq!(answer, Err(refusal));
        assert_eq!(refusal.number(), number);
        assert!(!refusal.to_string().is_empty());
    }
    assert_eq!(Refusal::new(0, 0), None);
    assert_eq!(Refusal::new(15, 0), None);
    assert_eq!(Refusal::new(17, 0), None);
    assert_eq!(Refusal::new(usize::MAX, 0), None);
    assert_eq!(Refusal::Isolated(5).to_string(), "row 5 is 0: vertex 5 has no neighbour");
    assert_eq!((Refusal::DimacsLine(7).value(), Refusal::EdgeCount.value()), (7, 0));
}
