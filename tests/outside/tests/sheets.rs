//! Sheets: valid and damaged texts against a reader by lines, round trips, and what the buffers hold. In most graphs each vertex has a neighbour; a graph in
//! which one has none is declined with 14.
use outside::calls::{read, read_sheet, refused, success, unread, write_sheet};
use outside::cases::{damage, faulty_linked_rows, first_of, graph, isolate, linked, many, mostly_linked, silent, LOWEST_ISOLATED};
use outside::instances::{self, Rng};
use outside::plain::full;
use outside::refusals::{isolated, when, MOST_SLACK};
use outside::text;

const ROW: u64 = 0x5555_0000_AAAA_FFFF;
const BYTE: u8 = 0xA5;

fn request(rng: &mut Rng) -> (usize, usize) {
    let k = rng.between(1, MOST_SLACK);
    (k, rng.between(2 * k - 1, 64))
}

/// A sheet of up to so many vertices.
fn some_sheet(rng: &mut Rng, most: usize) -> Vec<u8> {
    let (rows, (k, q)) = (mostly_linked(rng, most), request(rng));
    text::write(&rows, k, q, silent(rng, rows.len()))
}

/// Graphs of n vertices: one in which each has a neighbour, where there is such a graph, and one in which a vertex has none.
fn both_kinds(rng: &mut Rng, n: usize) -> [Vec<u64>; 2] {
    let right = if n == 1 { vec![0] } else { linked(rng, n, n) };
    let mut wrong = right.clone();
    isolate(&mut wrong, 1 << rng.below(n));
    [right, wrong]
}

/// Holds reading to the reader by lines, with room for so many rows, and writing to what was read. Gives the number of the outcome.
fn hold_reading(bytes: &[u8], room: usize) -> usize {
    let mut rows = vec![ROW; room];
    let outcome = read_sheet(bytes, &mut rows);
    match text::read(bytes, room) {
        Ok(sheet) => {
            let n = sheet.rows.len();
            assert_eq!(outcome, read(n, sheet.slack, sheet.floor, sheet.silent));
            assert_eq!(rows[..n], sheet.rows);
            assert!(rows[n..].iter().all(|&row| row == ROW), "later rows keep their contents");
            let mut again = vec![BYTE; bytes.len()];
            assert_eq!(write_sheet(&rows[..n], sheet.slack, sheet.floor, sheet.silent, &mut again), success(bytes.len(), 0));
            assert_eq!(again, bytes, "what is read is written back");
        }
        Err(refusal) => {
            assert_eq!(outcome, unread(refusal), "{:?}", String::from_utf8_lossy(bytes));
            assert!(rows.iter().all(|&row| row == ROW), "a refusal leaves every row");
        }
    }
    outcome.number
}

#[test]
fn what_is_written_is_the_sheet_and_reads_back() {
    let (mut rng, mut written, mut declined) = (Rng(20), 0, 0);
    for _ in 0..many(3000) {
        let (rows, (k, q)) = (mostly_linked(&mut rng, 64), request(&mut rng));
        let silent = silent(&mut rng, rows.len());
        let (want, beyond) = (text::write(&rows, k, q, silent), rng.below(20));
        let (mut bytes, mut back) = (vec![BYTE; want.len() + beyond], vec![ROW; rows.len() + beyond]);
        if let Some(refusal) = isolated(&rows) {
            assert_eq!(write_sheet(&rows, k, q, silent, &mut bytes), refused(refusal));
            assert!(bytes.iter().all(|&byte| byte == BYTE), "nothing is written");
            assert_eq!(read_sheet(&want, &mut back), unread(refusal));
            assert!(back.iter().all(|&row| row == ROW), "nothing is stored");
            declined += 1;
            continue;
        }
        assert_eq!(write_sheet(&rows, k, q, silent, &mut bytes), success(want.len(), 0));
        assert_eq!(bytes[..want.len()], want);
        assert!(bytes[want.len()..].iter().all(|&byte| byte == BYTE), "bytes beyond keep theirs");
        assert_eq!(read_sheet(&want, &mut back), read(rows.len(), k, q, silent));
        assert_eq!(back[..rows.len()], rows);
        assert!(back[rows.len()..].iter().all(|&row| row == ROW));
        written += 1;
    }
    println!("{written} graphs with a sheet, {declined} without one");
    assert!(written > 1000 && declined > 100);
}

#[test]
fn what_is_read_is_written_back() {
    let mut rng = Rng(21);
    for _ in 0..many(1000) {
        let (graph, (k, q)) = (linked(&mut rng, 2, 64), request(&mut rng));
        let bytes = text::write(&graph, k, q, silent(&mut rng, graph.len()));
        let mut rows = [ROW; 64];
        let read = read_sheet(&bytes, &mut rows);
        assert_eq!((read.number, read.vertices), (0, graph.len()));
        let mut again = vec![BYTE; bytes.len()];
        assert_eq!(write_sheet(&rows[..read.vertices], read.slack, read.floor, read.silent, &mut again), success(bytes.len(), 0));
        assert_eq!(again, bytes);
    }
}

#[test]
fn a_buffer_that_is_too_short() {
    let (mut rng, mut numbers) = (Rng(22), [0; 15]);
    for _ in 0..many(300) {
        let (rows, (k, q)) = (mostly_linked(&mut rng, 64), request(&mut rng));
        let silent = silent(&mut rng, rows.len());
        let sheet = text::write(&rows, k, q, silent);
        // 14 is told before 9
        let first = isolated(&rows);
        numbers[first.map_or(9, |(number, _)| number)] += 1;
        for room in [0, 1, 6, 7, 23, 24, sheet.len() - 17, sheet.len() - 1, rng.below(sheet.len())] {
            let mut bytes = vec![BYTE; room];
            assert_eq!(write_sheet(&rows, k, q, silent, &mut bytes), refused(first.unwrap_or((9, 24 + 17 * rows.len()))));
            assert!(bytes.iter().all(|&byte| byte == BYTE));
        }
        for room in [0, rows.len() - 1, rng.below(rows.len())] {
            let mut back = vec![ROW; room];
            assert_eq!(read_sheet(&sheet, &mut back), unread(first.unwrap_or((9, rows.len()))));
            assert!(back.iter().all(|&row| row == ROW));
        }
    }
    assert!(numbers[9] > 100 && numbers[14] > 10, "{numbers:?}");
}

#[test]
fn every_sheet_cut_short() {
    let mut rng = Rng(23);
    for case in 0..many(30) {
        let sheet = some_sheet(&mut rng, if case % 10 == 0 { 64 } else { 12 });
        for end in 0..=sheet.len() {
            hold_reading(&sheet[..end], 64);
        }
    }
    // a line is cut short also where its byte 10 alone is missing
    let sheet = text::write(&instances::ring(3), 1, 1, 0x5);
    let lines = (7..24).map(|end| (end, 2)).chain((24..75).map(|end| (end, 2 + (end - 7) / 17)));
    for (end, line) in (0..7).map(|end| (end, 1)).chain(lines) {
        assert_eq!(read_sheet(&sheet[..end], &mut [0; 3]), unread((8, line)), "{end} bytes");
    }
    assert_eq!(read_sheet(&sheet, &mut [0; 3]), read(3, 1, 1, 0x5));
}

#[test]
fn every_byte_of_a_sheet_changed() {
    let mut rng = Rng(24);
    let mut cases = 0;
    for _ in 0..many(12) {
        let sheet = some_sheet(&mut rng, 10);
        for at in 0..sheet.len() {
            for byte in [0, 9, 10, 13, 32, 47, 48, 49, 50, 57, 58, 64, 65, 70, 71, 96, 97, 102, 103, 127, 128, 255, rng.word() as u8] {
                let mut other = sheet.clone();
                other[at] = byte;
                hold_reading(&other, 64);
                cases += 1;
            }
        }
    }
    println!("{cases} sheets with one byte changed");
}

#[test]
fn every_place_of_a_sheet_with_a_byte_more_or_less() {
    let mut rng = Rng(25);
    for _ in 0..many(20) {
        let sheet = some_sheet(&mut rng, 10);
        for at in 0..sheet.len() {
            let mut fewer = sheet.clone();
            fewer.remove(at);
            hold_reading(&fewer, 64);
        }
        for at in 0..=sheet.len() {
            for byte in [0, 10, 13, 48, 70, 255] {
                let mut more = sheet.clone();
                more.insert(at, byte);
                hold_reading(&more, 64);
            }
        }
    }
}

#[test]
fn sheets_with_wrong_numbers_and_tables() {
    let mut rng = Rng(26);
    let mut numbers = [0; 15];
    for _ in 0..many(20_000) {
        let mut rows = mostly_linked(&mut rng, 64);
        damage(&mut rng, &mut rows);
        let silent = if rng.chance(0.2) { rng.word() } else { silent(&mut rng, rows.len()) };
        let mut bytes = text::write(&rows, 1, 1, silent);
        let heading = match rng.below(5) {
            0 => format!("{:02X}{:02X}{:02X}", rng.below(256), rng.below(256), rng.below(256)),
            1 => format!("{:02X}{:02X}{:02X}", rows.len(), rng.below(40), rng.below(80)),
            2 => format!("{:02X}0203", rng.between(1, 64)),
            _ => {
                let (k, q) = request(&mut rng);
                format!("{:02X}{k:02X}{q:02X}", rows.len())
            }
        };
        bytes[..6].copy_from_slice(heading.as_bytes());
        let room = if rng.chance(0.2) { rng.below(65) } else { 64 };
        numbers[hold_reading(&bytes, room)] += 1;
    }
    println!("outcomes by number: {numbers:?}");
    for number in [0, 1, 2, 3, 4, 5, 7, 8, 9, 14] {
        assert!(numbers[number] > 20, "refusal {number} is tried");
    }
}

#[test]
fn random_bytes_and_lines() {
    let mut rng = Rng(27);
    for case in 0..many(20_000) {
        let bytes: Vec<u8> = match case % 3 {
            0 => (0..rng.below(60)).map(|_| rng.word() as u8).collect(),
            1 => (0..rng.below(300)).map(|_| b"0123456789ABCDEF\n"[rng.below(17)]).collect(),
            _ => {
                let mut text = format!("{:02X}{:02X}{:02X}\n", rng.between(1, 4), 1, rng.between(1, 5));
                for _ in 0..rng.below(7) {
                    text += &format!("{:016X}", rng.word() & 15);
                    text += ["\n", "\n", "\n", "\n", "\r\n", "", "\n\n"][rng.below(7)];
                }
                text.into_bytes()
            }
        };
        hold_reading(&bytes, 64);
    }
}

/// The lines of a sheet, each with its byte 10.
fn lines(sheet: &[u8]) -> Vec<Vec<u8>> {
    sheet.split_inclusive(|&byte| byte == b'\n').map(<[u8]>::to_vec).collect()
}

#[test]
fn every_byte_of_line_2_changed_to_every_value() {
    let (mut rng, mut numbers) = (Rng(28), [0; 15]);
    for n in [1, 2, 4, 5, 31, 32, 60, 63, 64] {
        for (i, rows) in both_kinds(&mut rng, n).iter().enumerate() {
            let declined = i == 1 || n == 1;
            for silent in [0, full(n), 1 << (n - 1), silent(&mut rng, n)] {
                let sheet = text::write(rows, 2, 3, silent);
                for (at, byte) in (7..24).flat_map(|at| (0..=255).map(move |byte| (at, byte))) {
                    let mut other = sheet.clone();
                    other[at] = byte;
                    let number = hold_reading(&other, 64);
                    assert!(number == 7 || number == 8 || number == if declined { 14 } else { 0 });
                    numbers[number] += 1;
                }
            }
        }
    }
    println!("sheets with a byte of line 2 changed, by the number of the outcome: {numbers:?}");
    assert!((0..15).all(|number| (numbers[number] > 100) == [0, 7, 8, 14].contains(&number)));
}

#[test]
fn lines_left_out_and_doubled() {
    let mut rng = Rng(29);
    for _ in 0..many(100) {
        let sheet = lines(&some_sheet(&mut rng, 12));
        let n = sheet.len() - 2;
        for at in 0..sheet.len() {
            let (mut fewer, mut more, mut other) = (sheet.clone(), sheet.clone(), sheet.clone());
            fewer.remove(at);
            more.insert(at, sheet[at].clone());
            other.swap(at, rng.below(n + 2));
            for sheet in [&fewer, &more, &other] {
                hold_reading(&sheet.concat(), 64);
            }
            // a row, or line 2, is missed at the end, and one too many is found there
            if at > 0 {
                assert_eq!(read_sheet(&fewer.concat(), &mut [ROW; 64]), unread((8, n + 2)));
                assert_eq!(read_sheet(&more.concat(), &mut [ROW; 64]), unread((8, n + 3)));
            }
        }
    }
}

#[test]
fn sheets_of_the_time_before_line_2() {
    let (mut rng, mut numbers) = (Rng(30), [0; 15]);
    for n in 1..=64 {
        let mut damaged = graph(&mut rng, n, n);
        damage(&mut rng, &mut damaged);
        let [right, wrong] = both_kinds(&mut rng, n);
        for (kind, rows) in [right, wrong, damaged].into_iter().enumerate() {
            let (k, q) = request(&mut rng);
            let mut sheet = lines(&text::write(&rows, k, q, 0));
            sheet.remove(1);
            for room in [0, n - 1, n, 64] {
                let mut back = vec![ROW; room];
                assert_eq!(read_sheet(&sheet.concat(), &mut back), unread((8, n + 2)));
                assert!(back.iter().all(|&row| row == ROW));
            }
            // a line of zeros makes it a sheet again
            sheet.insert(1, b"0000000000000000\n".to_vec());
            assert_eq!(sheet.concat(), text::write(&rows, k, q, 0));
            let number = hold_reading(&sheet.concat(), 64);
            assert!(kind == 2 || number == if kind == 1 || n == 1 { 14 } else { 0 });
            numbers[number] += 1;
        }
    }
    assert!(numbers[0] >= 63 && numbers[14] >= 65, "{numbers:?}");
}

#[test]
fn silent_vertices_up_to_the_last_and_beyond() {
    let mut rng = Rng(31);
    for (n, rows) in (1..=64).flat_map(|n| both_kinds(&mut rng, n).map(|rows| (n, rows))) {
        let masks = (0..64).map(|v| 1u64 << v).chain([0, full(n), u64::MAX, full(n) & !1, u64::MAX << (n - 1)]);
        for silent in masks {
            let owed = when(silent & !full(n) != 0, 7, 0).or_else(|| isolated(&rows));
            let (sheet, mut back) = (text::write(&rows, 1, 1, silent), vec![ROW; n]);
            assert_eq!(read_sheet(&sheet, &mut back), owed.map_or(read(n, 1, 1, silent), unread));
            assert_eq!(back, if owed.is_some() { vec![ROW; n] } else { rows.clone() });
            let mut bytes = vec![BYTE; sheet.len()];
            assert_eq!(write_sheet(&rows, 1, 1, silent, &mut bytes), owed.map_or(success(sheet.len(), 0), refused));
            assert_eq!(bytes, if owed.is_some() { vec![BYTE; sheet.len()] } else { sheet });
        }
    }
}

/// Silent vertices of a graph of five.
const SILENT: [u64; 4] = [0, 0x01, 0x10, 0x1F];

/// A sheet with the chosen ones of the causes: a wrong line 1, n, slack, floor, another line, silent vertices, row, one-way edge and vertex without a
/// neighbour, in one of four ways. But for the causes it has five vertices, each with a neighbour. With it the line that is, or would be, the wrong other one.
fn faulty(causes: [bool; 9], way: usize) -> (Vec<u8>, usize) {
    let [heading, vertices, slack, floor, line, silent, row, one_way, isolated] = causes;
    let number = |wrong: bool, values: [usize; 4], right: usize| if wrong { values[way] } else { right };
    let (n, k, q) = (number(vertices, [0, 65, 255, 128], 5), number(slack, [0, 6, 255, 32], 2), number(floor, [0, 2, 65, 255], 3));
    let silent = if silent { [1 << 5, 1 << 63, u64::MAX, 0x30][way] } else { SILENT[way] };
    let mut sheet = lines(&text::write(&faulty_linked_rows([false, row, one_way, isolated], false, way), 1, 1, silent));
    sheet[0] = format!("{n:02X}{k:02X}{q:02X}{}", if heading { " \n" } else { "\n" }).into_bytes();
    let wrong = [2, 3, 7, 8][way];
    match (line, wrong) {
        (true, 8) => sheet.push(b"\n".to_vec()),
        (true, _) => sheet[wrong - 1][way] = b'a',
        (false, _) => (),
    }
    (sheet.concat(), wrong)
}

#[test]
fn the_order_of_causes() {
    // every choice of the causes: 8 at line 1, 1, 2, 3, 8 at another line, 7, 4, 5, 14, and 9
    for choice in 0..1usize << 10 {
        let causes: [bool; 10] = std::array::from_fn(|i| choice >> i & 1 == 1);
        for (way, silent) in SILENT.into_iter().enumerate() {
            let (sheet, wrong) = faulty(std::array::from_fn(|i| causes[i]), way);
            let room = if causes[9] { way } else { 5 + way };
            let lowest = LOWEST_ISOLATED[way];
            let owed = first_of([(8, 1), (1, 0), (2, 0), (3, 0), (8, wrong), (7, 0), (4, 3), (5, 2), (14, lowest), (9, 5)], causes);
            let outcome = read_sheet(&sheet, &mut vec![ROW; room]);
            assert_eq!(outcome, owed.map_or(read(5, 2, 3, silent), unread), "causes {causes:?}, way {way}");
            hold_reading(&sheet, room);
        }
    }
}

#[test]
fn worked_edges() {
    let ring = b"050203\n0000000000000000\n0000000000000012\n0000000000000005\n000000000000000A\n0000000000000014\n0000000000000009\n";
    let mut rows = [ROW; 5];
    assert_eq!(read_sheet(ring, &mut rows), read(5, 2, 3, 0));
    assert_eq!(rows, [0x12, 0x05, 0x0A, 0x14, 0x09]);
    let silent = [b"050203\n0000000000000018\n", &ring[24..]].concat();
    assert_eq!(read_sheet(&silent, &mut rows), read(5, 2, 3, 0x18));
    assert_eq!(read_sheet(b"", &mut rows), unread((8, 1)));
    assert_eq!(read_sheet(b"050203", &mut rows), unread((8, 1)));
    assert_eq!(read_sheet(b"050203\n", &mut rows), unread((8, 2)));
    // line 1 by 8, then 1, 2, 3, then the other lines
    assert_eq!(read_sheet(b"000000\n", &mut rows), unread((1, 0)));
    assert_eq!(read_sheet(b"410600\n", &mut rows), unread((1, 0)));
    assert_eq!(read_sheet(b"400600\n", &mut rows), unread((2, 0)));
    assert_eq!(read_sheet(b"400541\n", &mut rows), unread((3, 0)));
    assert_eq!(read_sheet(b"400508\n", &mut rows), unread((3, 0)));
    assert_eq!(read_sheet(b"400509\n", &mut rows), unread((8, 2)));
    // the ring as it was written before line 2
    assert_eq!(read_sheet(&[&ring[..7], &ring[24..]].concat(), &mut rows), unread((8, 7)));
    assert_eq!(read_sheet(&[&ring[..], b"\n"].concat(), &mut rows), unread((8, 8)));
    assert_eq!(read_sheet(ring, &mut rows[..4]), unread((9, 5)));
    // a sixth vertex that nobody linked, and a seventh; and one vertex alone
    let six = [b"060203\n", &ring[7..], b"0000000000000000\n"].concat();
    assert_eq!(read_sheet(&six, &mut [ROW; 6]), unread((14, 5)));
    assert_eq!(read_sheet(&six, &mut rows), unread((14, 5)));
    let seven = [b"070203\n", &six[7..], b"0000000000000000\n"].concat();
    assert_eq!(read_sheet(&seven, &mut [ROW; 7]), unread((14, 5)));
    assert_eq!(read_sheet(b"010101\n0000000000000000\n0000000000000000\n", &mut rows), unread((14, 0)));
    let longest = text::write(&instances::complete(64), 5, 64, u64::MAX);
    assert_eq!(longest.len(), 1112);
    hold_reading(&longest, 64);
}
