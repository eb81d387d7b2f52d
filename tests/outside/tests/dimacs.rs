//! Graphs in the DIMACS form: right and damaged texts against a reader by lines, every cause beside each other, figures of up to 40 digits, what the rows hold,
//! and the published graphs of the clique challenge, read and listed.
use outside::calls::{largest, list, read_dimacs, refused, success};
use outside::cases::{all_graphs, comment, damage_dimacs, dimacs_text, first_of, graph, lines_of, many, shuffle};
use outside::dimacs::{self, edge_line, problem_line};
use outside::instances::{self, Rng};
use outside::refusals::{when, Refused, NUMBERS};

const ROW: u64 = 0x5555_0000_AAAA_FFFF;

/// What the lent rows hold before a call: no two of them the same.
fn junk(room: usize) -> Vec<u64> {
    (0..room as u64).map(|a| ROW.wrapping_mul(2 * a + 1)).collect()
}

/// Holds the call to this graph, or to this refusal, with room for so many rows, and the reader by lines as well.
fn hold_to(text: &[u8], room: usize, want: Result<&[u64], (usize, usize)>) {
    let shown = || text[..text.len().min(2000)].escape_ascii().to_string();
    assert_eq!(dimacs::read(text, room).as_deref(), want.as_ref().copied(), "the reader by lines, {}", shown());
    let (before, stored) = (junk(room), want.unwrap_or(&[]));
    let mut rows = before.clone();
    let outcome = read_dimacs(text, &mut rows);
    assert_eq!(outcome, want.map_or_else(refused, |graph| success(graph.len(), 0)), "room {room}, {}", shown());
    assert_eq!(rows[..stored.len()], *stored, "{}", shown());
    assert_eq!(rows[stored.len()..], before[stored.len()..], "other rows keep their contents, {}", shown());
}

/// Holds the call to the reader by lines, with room for so many rows. Gives the number of the outcome.
fn hold(text: &[u8], room: usize) -> usize {
    let want = dimacs::read(text, room);
    hold_to(text, room, want.as_deref().map_err(|&refusal| refusal));
    want.map_or_else(|(number, _)| number, |_| 0)
}

/// Holds the call to a refusal that no room changes: 15, 1 or 16.
fn hold_refused(text: impl AsRef<[u8]>, refusal: (usize, usize)) {
    [0, 1, 64, 65].into_iter().for_each(|room| hold_to(text.as_ref(), room, Err(refusal)));
}

/// Holds the call to a graph: into no rows, too few by one, just enough, one more, and many.
fn hold_read(text: impl AsRef<[u8]>, graph: &[u64]) {
    let n = graph.len();
    for room in [0, n - 1, n, n + 1, 64, 65, 200] {
        hold_to(text.as_ref(), room, when(room < n, 9, n).map_or(Ok(graph), Err));
    }
}

/// Holds the call to a refusal, or to the graph.
fn hold_either(text: impl AsRef<[u8]>, owed: Refused, graph: &[u64]) {
    match owed {
        Some(refusal) => hold_refused(text, refusal),
        None => hold_read(text, graph),
    }
}

/// Four vertices, of which 1 is adjacent to 2 and 4, and 2 to 3.
const SMALL: &[u8] = b"c a small file\np edge 4 3\ne 1 2\nc\ne 3 2\ne 4 1\ncc 4\n";
const SMALL_ROWS: [u64; 4] = [0xA, 0x5, 0x2, 0x1];

/// A file with figures of two digits and of one, and without a comment.
fn wide() -> Vec<u8> {
    let mut rows = vec![0; 64];
    [(63, 62), (63, 0), (9, 10), (0, 1), (12, 31)].iter().for_each(|&(a, b)| instances::connect(&mut rows, a, b));
    dimacs::write(&rows)
}

/// A file of up to so many vertices.
fn some_text(rng: &mut Rng, most: usize) -> Vec<u8> {
    let rows = graph(rng, 1, most);
    dimacs_text(rng, &rows)
}

#[test]
fn every_byte_of_a_small_file_changed_to_every_value() {
    let mut numbers = [0; NUMBERS];
    for text in [SMALL, &wide()] {
        for (at, byte) in (0..text.len()).flat_map(|at| (0..=255).map(move |byte| (at, byte))) {
            let mut other = text.to_vec();
            other[at] = byte;
            for room in [3, 4, 64] {
                numbers[hold(&other, room)] += 1;
            }
        }
    }
    println!("files with a byte changed, by the number of the outcome: {numbers:?}");
    assert!((0..NUMBERS).all(|number| (numbers[number] > 10) == [0, 1, 9, 15, 16].contains(&number)));
    // a byte of a comment may be any but 10, its first byte none but c
    for byte in (0..=255).filter(|&byte| byte != b'\n') {
        let with = |at: usize| [&SMALL[..at], &[byte], &SMALL[at + 1..]].concat();
        (1..14).for_each(|at| hold_read(with(at), &SMALL_ROWS));
        hold_either(with(0), when(byte != b'c', 15, 1), &SMALL_ROWS);
    }
}

#[test]
fn every_length_cut() {
    hold_read(SMALL, &SMALL_ROWS);
    for end in 0..SMALL.len() {
        let lines = SMALL[..end].iter().filter(|&&byte| byte == b'\n').count();
        let whole = end == 0 || SMALL[end - 1] == b'\n';
        // a line is cut, there is no p line, or e lines are missing; after those a comment may
        let owed = when(!whole || lines < 2, 15, lines + 1).or_else(|| when(lines < 6, 16, 0));
        hold_either(&SMALL[..end], owed, &SMALL_ROWS);
    }
    let mut rng = Rng(80);
    for _ in 0..many(100) {
        let text = some_text(&mut rng, 12);
        for at in 0..=text.len() {
            hold(&text[..at], 64);
            hold(&text[at..], 64);
        }
    }
}

/// What is owed where the lines are all right by themselves, and m is so much: 15 at the first e line before the p line, at a second p line, or after the last
/// line where there is no p line; then 16.
fn owed_of(lines: &[Vec<u8>], m: usize) -> Refused {
    let mut problems = 0;
    for (l, line) in (1..).zip(lines) {
        problems += (line[0] == b'p') as usize;
        if problems > 1 && line[0] == b'p' || problems == 0 && line[0] == b'e' {
            return Some((15, l));
        }
    }
    let edges = lines.iter().filter(|line| line[0] == b'e').count();
    when(problems == 0, 15, lines.len() + 1).or_else(|| when(edges != m, 16, 0))
}

#[test]
fn every_line_doubled_dropped_and_swapped() {
    let (mut rng, mut numbers) = (Rng(81), [0; NUMBERS]);
    for _ in 0..many(60) {
        let text = some_text(&mut rng, 8);
        let graph = dimacs::read(&text, 64).expect("a graph");
        let lines = lines_of(&text);
        let m = lines.iter().filter(|line| line[0] == b'e').count();
        let mut hold_lines = |lines: Vec<Vec<u8>>| {
            let owed = owed_of(&lines, m);
            hold_either(lines.concat(), owed, &graph);
            numbers[owed.map_or(0, |(number, _)| number)] += 1;
        };
        for at in 0..lines.len() {
            let (mut fewer, mut more, mut far) = (lines.clone(), lines.clone(), lines.clone());
            fewer.remove(at);
            more.insert(at, lines[at].clone());
            far.insert(rng.below(lines.len() + 1), lines[at].clone());
            [fewer, more, far].into_iter().for_each(&mut hold_lines);
            for other in 0..at {
                let mut swapped = lines.clone();
                swapped.swap(at, other);
                hold_lines(swapped);
            }
        }
    }
    println!("files with a line doubled, dropped or swapped, by the number of the outcome: {numbers:?}");
    assert!((0..NUMBERS).all(|number| (numbers[number] > 10) == [0, 15, 16].contains(&number)));
}

/// A figure a little above 2^128, which ends in 456.
fn above_2_128(more: u128) -> String {
    format!("340282366920938463463374607431768211{}", 456 + more)
}

/// Figures of 1 to 40 digits: around 0, 1, n, 64, 2^31, 2^32, 2^63, 2^64 and 2^127; those whose lowest 8, 16, 32, 64 or 128 bits are small; and the least and
/// greatest of each length, with some between.
fn figures(rng: &mut Rng, n: usize) -> Vec<String> {
    let around = |x: u128| x.saturating_sub(3)..=x + 3;
    let places = [0, n as u128, 64, 1 << 31, 1 << 32, 1 << 63, 1 << 64, 1 << 127];
    let small = [0, 1, 2, n as u128, n as u128 + 1, 64, 65];
    let wrapped = [8, 16, 32, 33, 63, 64, 65, 127].into_iter().flat_map(|bits| small.map(|x| (1u128 << bits) + x));
    let mut figures: Vec<String> = places.into_iter().flat_map(around).chain(wrapped).map(|x| x.to_string()).collect();
    figures.extend(small.map(above_2_128));
    for length in 1..=40 {
        let digits = |mut digit: Box<dyn FnMut(usize) -> usize + '_>| (0..length).map(|i| digit(i).to_string()).collect::<String>();
        figures.push(digits(Box::new(|i| (i == 0) as usize)));
        figures.push(digits(Box::new(|i| (i == 0 || i == length - 1) as usize)));
        figures.push(digits(Box::new(|_| 9)));
        (0..3).for_each(|_| figures.push(digits(Box::new(|i| if i == 0 { rng.between(1, 9) } else { rng.below(10) }))));
    }
    figures
}

/// The value of a figure; one that is too long is greater than all that counts.
fn value(figure: &str) -> u128 {
    figure.parse().unwrap_or(u128::MAX)
}

/// The graph of n vertices with one edge.
fn single_edge(n: usize, a: usize, b: usize) -> Vec<u64> {
    let mut rows = vec![0; n];
    instances::connect(&mut rows, a, b);
    rows
}

#[test]
fn figures_of_1_to_40_digits() {
    let (mut rng, mut read, mut cases) = (Rng(82), [0; 3], 0);
    for n in [1, 2, 5, 9, 10, 63, 64] {
        for figure in figures(&mut rng, n) {
            let x = value(&figure);
            // as n
            let accepted = (1..=64).contains(&x);
            hold_either(format!("p edge {figure} 0\n"), when(!accepted, 1, 0), &vec![0; if accepted { x as usize } else { 1 }]);
            read[0] += accepted as usize;
            // as m, where there is no edge, and where there is one
            let owed = |edges: u128| when(x > 4_294_967_295, 15, 1).or_else(|| when(x != edges, 16, 0));
            hold_either(format!("p edge {n} {figure}\n"), owed(0), &vec![0; n]);
            if n > 1 {
                hold_either(format!("p edge {n} {figure}\ne {n} 1\n"), owed(1), &single_edge(n, n - 1, 0));
            }
            read[1] += owed(1).is_none() as usize;
            // as u and v, beside 1
            let vertex = (2..=n as u128).contains(&x);
            let rows = single_edge(n, if vertex { x as usize - 1 } else { 0 }, 0);
            for edge in [format!("e {figure} 1"), format!("e 1 {figure}")] {
                hold_either(format!("p edge {n} 1\n{edge}\n"), when(!vertex, 15, 2), &rows);
            }
            read[2] += vertex as usize;
            cases += 1;
        }
    }
    println!("{cases} figures; as n, m and a vertex {read:?} of them are read");
    assert!(read.iter().all(|&read| read > 10));
}

/// Texts with this field as n, as m, as u and as v, each with its line.
fn with_field(field: &str) -> [(String, usize); 4] {
    [
        (format!("p edge {field} 1\ne 1 2\n"), 1),
        (format!("p edge 9 {field}\ne 1 2\n"), 1),
        (format!("p edge 9 1\ne {field} 2\n"), 2),
        (format!("p edge 9 1\ne 2 {field}\n"), 2),
    ]
}

#[test]
fn what_is_no_figure() {
    let mut rng = Rng(83);
    let fields = [
        "", "+1", "-1", "-0", "+0", "1.", "1.0", ".1", "1,0", "0x1", "0b1", "1e0", "1_0", "a", "l", "O", "one", "1a", "a1", "\0", "1\0", "\x0b1", "¹", "１",
        "١", "1\u{a0}", "1 ", " 1", "  1", "1  ", "1 1", "\t1", "1\t", "1\r", "\r", "'1'", "\"1\"", "#1", "1c", "c1",
    ];
    for field in fields {
        with_field(field).iter().for_each(|(text, line)| hold_refused(text, (15, *line)));
    }
    // leading zeros, before any figure
    for figure in figures(&mut rng, 9) {
        for zeros in ["0", "00", "0000000000000000000000000000000000000000"] {
            with_field(&format!("{zeros}{figure}")).iter().for_each(|(text, line)| hold_refused(text, (15, *line)));
        }
        // a byte that is no digit, anywhere in it
        let (at, byte) = (rng.below(figure.len() + 1), b"+-.,_/:xX\t\r\0"[rng.below(12)]);
        let spoilt = format!("{}{}{}", &figure[..at], byte as char, &figure[at..]);
        with_field(&spoilt).iter().for_each(|(text, line)| hold_refused(text, (15, *line)));
    }
    // without them 1 is right as m, u and v; as n it leaves no vertex 2
    with_field("1")[1..].iter().for_each(|(text, _)| hold_read(text, &single_edge(9, 0, 1)));
    hold_refused(&with_field("1")[0].0, (15, 2));
}

#[test]
fn every_other_byte_in_place_of_a_blank_and_of_a_letter() {
    let text = b"p edge 12 1\ne 11 12\n";
    hold_read(text, &single_edge(12, 10, 11));
    for byte in 0..=255 {
        // the p, the four letters, three blanks; then the e, and two blanks
        for (at, line) in [0, 1, 2, 3, 4, 5, 6, 9].map(|at| (at, 1)).into_iter().chain([12, 13, 16].map(|at| (at, 2))) {
            let mut other = text.to_vec();
            if other[at] == byte {
                continue;
            }
            other[at] = byte;
            // a line that begins with c is a comment: then the e line comes before the p line, or is missing
            let owed = match (at, byte) {
                (0, b'c') => (15, 2),
                (12, b'c') => (16, 0),
                _ => (15, line),
            };
            hold_refused(&other, owed);
        }
        // a byte more: before and after each field, and at each end
        for at in [0, 1, 2, 6, 7, 9, 10, 11] {
            let digit = byte.is_ascii_digit();
            let other = [&text[..at], &[byte], &text[at..]].concat();
            match (at, byte) {
                (0, b'c') => hold_refused(other, (15, 2)),
                (7 | 9 | 10 | 11, _) if digit => drop(hold(&other, 64)),
                (11, b'\n') => hold_refused(other, (15, 2)),
                _ => hold_refused(other, (15, 1)),
            }
        }
    }
}

/// Lines of another shape, with a bar between them. The first is empty.
const SHAPES: &str = "| |\t|\r|\0|p|p |p edge|p edge |p edge 3|p edge 3 |p edge 3 1 |p edge 3 1 1|p  edge 3 1|p edge  3 1|p edge 3  1| p edge 3 1|p edge 3 1\r|\
p edge\t3\t1|p col 3 1|p Edge 3 1|p edges 3 1|p edg 3 1|P edge 3 1|pedge 3 1|edge 3 1|3 1|e|e |e 1|e 1 |e 1 2 |e 1 2 3|e  1 2|e 1  2| e 1 2|e 1 2\r|e\t1\t2|E 1 2|\
e1 2|a 1 2|n 1 2| c|C|% c";

#[test]
fn lines_of_another_shape() {
    for shape in SHAPES.split('|').map(str::as_bytes) {
        let line = [shape, b"\n"].concat();
        // first, after the p line, and last
        hold_refused(&line, (15, 1));
        hold_refused([&line[..], b"p edge 3 1\ne 1 2\n"].concat(), (15, 1));
        hold_refused([b"p edge 3 1\n", &line[..], b"e 1 2\n"].concat(), (15, 2));
        hold_refused([b"p edge 3 1\ne 1 2\n", &line[..]].concat(), (15, 3));
        // beside 16, and beside n out of range before it
        hold_refused([b"p edge 3 9\ne 1 2\n", &line[..]].concat(), (15, 3));
        hold_refused([b"p edge 0 0\n", &line[..]].concat(), (1, 0));
        // in a comment it is right
        hold_read([b"p edge 3 1\nc", &line[..], b"e 1 2\n"].concat(), &[2, 1, 0]);
        // and without a byte 10 nothing is
        hold_refused([b"p edge 3 1\ne 1 2\nc", shape].concat(), (15, 3));
    }
    // the same file with byte 13 at each end of a line, and with byte 13 alone
    let text = String::from_utf8(SMALL.to_vec()).unwrap();
    hold_refused(text.replace('\n', "\r\n"), (15, 2));
    hold_refused(text.replace('\n', "\r"), (15, 1));
    hold_refused("p edge 1 0\r\n", (15, 1));
}

#[test]
fn comments_anywhere() {
    let lines = lines_of(&dimacs::write(&SMALL_ROWS));
    let mut rng = Rng(84);
    // every byte behind the c, which may also stand alone, at each place
    for byte in (0..=255).filter(|&byte| byte != b'\n') {
        for at in 0..=lines.len() {
            let mut more = lines.clone();
            more.insert(at, vec![b'c', byte, byte, b'\n']);
            hold_read(more.concat(), &SMALL_ROWS);
        }
    }
    for at in 0..=lines.len() {
        for text in ["c\n", "cc\n", "c\r\n", "c \n", "c p edge 9 9\n", "cp edge 9 9\n", "c e 1 2\n", "ce 1 2\n", "comment\n", "c\nc\nc\n"] {
            let mut more = lines.clone();
            more.insert(at, text.as_bytes().to_vec());
            hold_read(more.concat(), &SMALL_ROWS);
        }
        // a comment is a line, so that what is wrong behind it is told by a later one
        let mut wrong = lines.clone();
        (0..3).for_each(|_| wrong.insert(at, comment(&mut rng)));
        wrong.push(b"\n".to_vec());
        hold_refused(wrong.concat(), (15, lines.len() + 4));
    }
    // between all lines, and long ones
    for length in [0, 1, 10, 79, 80, 1000, 70_000] {
        let text: Vec<u8> = lines.iter().flat_map(|line| [vec![b'c'], vec![b'e'; length], vec![b'\n'], line.clone()].concat()).collect();
        hold_read([&text[..], b"c end\n"].concat(), &SMALL_ROWS);
        // the last one without its byte 10
        hold_refused([&text[..], b"c end"].concat(), (15, 2 * lines.len() + 1));
    }
    // nothing else
    hold_refused("", (15, 1));
    hold_refused("\n", (15, 1));
    (0..20).for_each(|many| hold_refused("c nothing\n".repeat(many), (15, many + 1)));
    hold_refused("c", (15, 1));
    hold_refused("c\nc", (15, 2));
}

#[test]
fn rooms() {
    for n in 1..=64 {
        let graph = instances::complete(n);
        let text = dimacs::write(&graph);
        for room in 0..=n + 3 {
            hold_to(&text, room, when(room < n, 9, n).map_or(Ok(&graph), Err));
        }
        hold_read(problem_line(n, 0), &vec![0; n]);
    }
}

/// The five lines of a text, without their last byte 10, with the chosen ones of the causes: 15 at line 1, 15 and 1 at the p line, 15 at an e line, at a second
/// p line and at another e line, and another m. But for the causes the graph has five vertices and two edges.
fn faulty(causes: [bool; 7], way: usize) -> String {
    let [first, problem, vertices, edge, second, other, count] = causes;
    let one = |wrong: bool, ways: [&'static str; 4], right: &'static str| if wrong { ways[way] } else { right };
    let n = one(vertices, ["0", "65", "18446744073709551617", "99999999999999999999999999999999999999999"], "5");
    let m = one(count, ["0", "1", "3", "4294967295"], "2");
    let problem = match (problem, way) {
        (false, _) => format!("p edge {n} {m}"),
        (_, 0) => format!("p edge {n} 4294967296"),
        (_, 1) => format!("p edge {n} {m} "),
        (_, 2) => format!("p edge {n}  {m}"),
        _ => format!("p edge 0{n} {m}"),
    };
    [
        one(first, ["", "x", " c", "e 1 2"], "c"),
        &problem,
        one(edge, ["e 1 6", "e 0 1", "e 3 3", "e 1 "], "e 1 2"),
        one(second, ["p edge 0 2", "p edge 5 2", "p edge 65 0", "p edge 5 4294967296"], "c"),
        one(other, ["e 6 6", "e 4294967297 2", "e 2 18446744073709551619", "e 2 3\r"], "e 2 3"),
    ]
    .join("\n")
}

#[test]
fn the_order_of_causes() {
    let (rows, mut numbers) = ([0x2, 0x5, 0x2, 0, 0], [0; NUMBERS]);
    // every choice of the causes, the last two of which are no byte 10 at the end, and too little room
    for (choice, way) in (0..1usize << 9).flat_map(|choice| (0..4).map(move |way| (choice, way))) {
        let [first, problem, vertices, edge, second, other, unended, count, short]: [bool; 9] = std::array::from_fn(|i| choice >> i & 1 == 1);
        let text = faulty([first, problem, vertices, edge, second, other, count], way);
        let text = text + if unended { ["", "\nc", "\ne 1 2", "\n\r"][way] } else { "\n" };
        let line = if way == 0 { 5 } else { 6 };
        let room = if short { [0, 1, 3, 4][way] } else { 5 + way };
        let owed = first_of(
            [(15, 1), (15, 2), (1, 0), (15, 3), (15, 4), (15, 5), (15, line), (16, 0), (9, 5)],
            [first, problem, vertices, edge, second, other, unended, count, short],
        );
        hold_to(text.as_bytes(), room, owed.map_or(Ok(&rows), Err));
        numbers[owed.map_or(0, |(number, _)| number)] += 1;
    }
    println!("{numbers:?}");
    assert!([0, 1, 9, 15, 16].iter().all(|&number| numbers[number] > 0));
}

#[test]
fn the_p_line() {
    // m's limit, and 1 only once the whole line has passed
    for n in ["0", "1", "64", "65", "256", "4294967297", "18446744073709551616", "18446744073709551617", &"9".repeat(40)] {
        let owed = if ["1", "64"].contains(&n) { (16, 0) } else { (1, 0) };
        hold_refused(format!("p edge {n} 1\n"), owed);
        hold_refused(format!("p edge {n} 4294967295\n"), owed);
        for m in ["4294967296", "4294967297", "18446744073709551616", "18446744073709551617", &"1".repeat(40), "01", "-1", "1 ", "1\r", ""] {
            hold_refused(format!("p edge {n} {m}\n"), (15, 1));
        }
        hold_refused(format!("p edge {n} 1"), (15, 1));
        // a second one is 15 whatever it says
        hold_refused(format!("p edge 2 0\np edge {n} 0\n"), (15, 2));
        hold_refused(format!("p edge 2 1\nc\ne 1 2\np edge {n} 1\n"), (15, 4));
        // a line that follows n out of range is not met
        if owed.0 == 1 {
            hold_refused(format!("c\np edge {n} 0\nx\ne 1 1\np edge 3 0\nc"), (1, 0));
        }
    }
    // none, or behind an e line
    hold_refused("e 1 2\n", (15, 1));
    hold_refused("e 1 2\np edge 2 1\n", (15, 1));
    hold_refused("c\nc\ne 1 2\np edge 0 1\n", (15, 3));
    hold_refused("c\ne 7 7\n", (15, 2));
    hold_read("p edge 1 0\n", &[0]);
    hold_read("c\np edge 64 0\nc\n", &[0; 64]);
}

#[test]
fn the_vertices_of_an_e_line() {
    // every two figures up to two more than n, and some that would be a vertex by their lowest bits
    let others = ["255", "256", "257", "65537", "4294967297", "18446744073709551617", "18446744073709551618", "99999999999999999999999999999999999999999"];
    for n in [1, 2, 3, 9, 10, 63, 64] {
        let figures: Vec<String> = (0..=n + 2).map(|v| v.to_string()).chain(others.map(String::from)).collect();
        for (u, v) in figures.iter().flat_map(|u| figures.iter().map(move |v| (u, v))) {
            let (a, b) = (value(u), value(v));
            let right = (1..=n as u128).contains(&a) && (1..=n as u128).contains(&b) && a != b;
            let rows = if right { single_edge(n, a as usize - 1, b as usize - 1) } else { vec![0; n] };
            let owed = when(!right, 15, 3).map_or(Ok(&rows[..]), Err);
            hold_to(format!("p edge {n} 1\nc\ne {u} {v}\n").as_bytes(), n, owed);
        }
    }
}

#[test]
fn as_many_edges_as_the_p_line_says() {
    for (m, edges) in (0..12).flat_map(|m| (0..12).map(move |edges| (m, edges))) {
        // one edge again and again, either way round
        let lines: String = (0..edges).map(|i| edge_line(&if i % 2 == 0 { (1, 3) } else { (3, 1) })).collect();
        let text = problem_line(3, m) + &lines;
        let rows = if edges == 0 { [0, 0, 0] } else { [4, 0, 1] };
        hold_either(&text, when(m != edges, 16, 0), &rows);
        // 16 is told at the end, and never before what is wrong in a later line
        for wrong in ["x\n", "\n", "e 1 4\n", "e 2 2\n", "p edge 3 1\n", "p edge 65 1\n", "c", "e 1 2"] {
            hold_refused(text.clone() + wrong, (15, edges + 2));
            hold_refused(text.clone() + "c\nc\n" + wrong, (15, edges + 4));
        }
        hold_either(text.clone() + "c\n", when(m != edges, 16, 0), &rows);
    }
    // many, so that no count of 8 or 16 bits would do
    for edges in [255, 256, 257, 65_535, 65_536, 65_537] {
        let lines = edge_line(&(2, 1)).repeat(edges);
        for m in [0, 1, edges - 1, edges, edges + 1, edges + 256, edges + 65_536] {
            let text = problem_line(2, m) + &lines;
            hold_to(text.as_bytes(), 2, when(m != edges, 16, 0).map_or(Ok(&[2, 1]), Err));
        }
        for (end, line) in [("x", edges + 2), ("c\ne 1 1\n", edges + 3)] {
            hold_to((problem_line(2, 1) + &lines + end).as_bytes(), 2, Err((15, line)));
        }
    }
}

#[test]
fn e_lines_in_any_order_and_either_way_round() {
    let mut rng = Rng(85);
    for _ in 0..many(300) {
        let rows = graph(&mut rng, 1, 64);
        let mut edges = dimacs::edges(&rows);
        for _ in 0..3 {
            shuffle(&mut rng, &mut edges);
            edges.iter_mut().filter(|_| rng.chance(0.5)).for_each(|(u, v)| std::mem::swap(u, v));
            let lines: String = edges.iter().map(edge_line).collect();
            hold_read(problem_line(rows.len(), edges.len()) + &lines, &rows);
            // all of them a second time, the other way round
            let turned: String = edges.iter().map(|&(u, v)| edge_line(&(v, u))).collect();
            hold_read(problem_line(rows.len(), 2 * edges.len()) + &lines + &turned, &rows);
            if !edges.is_empty() {
                hold_refused(problem_line(rows.len(), edges.len()) + &lines + &turned, (16, 0));
            }
        }
    }
}

#[test]
fn every_graph_of_up_to_five_vertices() {
    for rows in (1..=5).flat_map(all_graphs) {
        hold_read(dimacs::write(&rows), &rows);
    }
}

#[test]
fn random_graphs_of_up_to_64_vertices() {
    let (mut rng, mut edges) = (Rng(86), 0);
    for _ in 0..many(2000) {
        let rows = graph(&mut rng, 1, 64);
        hold_read(dimacs_text(&mut rng, &rows), &rows);
        edges += dimacs::edges(&rows).len();
    }
    println!("{edges} edges are read");
}

#[test]
fn damaged_texts() {
    let (mut rng, mut numbers) = (Rng(87), [0; NUMBERS]);
    for case in 0..many(30_000) {
        let mut text = some_text(&mut rng, if case % 10 == 0 { 64 } else { 12 });
        for _ in 0..rng.between(1, 3) {
            damage_dimacs(&mut rng, &mut text);
        }
        let room = if rng.chance(0.3) { rng.below(13) } else { 64 };
        numbers[hold(&text, room)] += 1;
    }
    println!("damaged texts, by the number of the outcome: {numbers:?}");
    assert!((0..NUMBERS).all(|number| (numbers[number] > 100) == [0, 1, 9, 15, 16].contains(&number)));
}

#[test]
fn random_bytes_and_fields() {
    let (mut rng, mut numbers) = (Rng(88), [0; NUMBERS]);
    let fields = ["p edge 2 1\n", "p edge 3 2\n", "p", "edge", "e", "e 1 2\n", "e 2 3\n", "c", "c\n", "1", "2", "3", "0", "65", " ", " ", "\n", "\n", "\r\n"];
    for case in 0..many(60_000) {
        let text: Vec<u8> = match case % 3 {
            0 => (0..rng.below(60)).map(|_| rng.word() as u8).collect(),
            1 => (0..rng.below(40)).map(|_| b"0123456789 \ncpe"[rng.below(15)]).collect(),
            _ => {
                let start = ["", "p edge 2 1\n", "p edge 3 2\n"][rng.below(3)].to_string();
                (0..rng.below(6)).fold(start, |text, _| text + fields[rng.below(fields.len())]).into_bytes()
            }
        };
        numbers[hold(&text, rng.below(4))] += 1;
    }
    println!("random texts, by the number of the outcome: {numbers:?}");
    assert!([0, 9, 15, 16].iter().all(|&number| numbers[number] > 20));
}

/// A published graph: its name, how many vertices and edges it has and how large its largest clique is, as published, the graph as the tests make it, and how
/// many maximal k-plexes it has for some slacks and floors.
struct Published {
    name: &'static str,
    vertices: usize,
    edges: usize,
    clique: usize,
    rows: Vec<u64>,
    counts: &'static [(usize, usize, usize)],
}

fn published() -> [Published; 4] {
    [
        Published {
            name: "hamming6-2",
            vertices: 64,
            edges: 1824,
            clique: 32,
            rows: instances::hamming6(2),
            counts: &[(1, 11, 1_281_402), (1, 33, 0), (2, 32, 14), (3, 40, 0)],
        },
        Published {
            name: "hamming6-4",
            vertices: 64,
            edges: 704,
            clique: 4,
            rows: instances::hamming6(4),
            counts: &[(1, 1, 464), (2, 3, 22_416), (2, 6, 960), (3, 5, 330_248), (4, 9, 15_744), (5, 11, 19_680)],
        },
        Published {
            name: "johnson8-2-4",
            vertices: 28,
            edges: 210,
            clique: 4,
            rows: instances::johnson8_2_4(),
            counts: &[(1, 1, 105), (2, 3, 2625), (3, 5, 11_707), (4, 7, 83_307), (5, 9, 179_655)],
        },
        Published {
            name: "MANN_a9",
            vertices: 45,
            edges: 918,
            clique: 16,
            rows: instances::mann_a9(),
            counts: &[(1, 11, 590_886), (2, 25, 86_589), (3, 32, 298), (4, 38, 0), (5, 45, 1)],
        },
    ]
}

#[test]
fn published_graphs() {
    for Published { name, vertices, edges, clique, rows, counts } in published() {
        let edge_lines = dimacs::edges(&rows);
        assert_eq!((rows.len(), edge_lines.len()), (vertices, edges), "{name}");
        // as a file of the challenge: comments, the p line, a comment among the edges and one behind them
        let (before, after) = edge_lines.split_at(edges / 2);
        let lines = |part: &[(usize, usize)]| part.iter().map(edge_line).collect::<String>();
        let heading = format!("c FILE: {name}.clq\nc\nc SOURCE: the clique challenge\nc Graph size: {vertices}, clique number: {clique}\nc\n");
        let text = format!("{heading}{}{}c half of the edges\n{}c end\n", problem_line(vertices, edges), lines(before), lines(after));
        hold_read(&text, &rows);
        let mut lent = junk(64);
        assert_eq!(read_dimacs(text.as_bytes(), &mut lent), success(vertices, 0));
        let graph = &lent[..vertices];
        assert_eq!(largest(graph, 1, 0).value, clique, "{name}");
        for &(k, q, m) in counts {
            let mut slots = vec![0; m];
            assert_eq!(list(graph, k, q, 0, &mut slots), success(m, 0), "{name} k={k} q={q}");
            assert!(slots.windows(2).all(|pair| pair[0] < pair[1]), "{name} k={k} q={q}");
        }
        println!("{name}: {} bytes, {} lists", text.len(), counts.len());
    }
}

#[test]
fn the_file_of_the_example() {
    let file = std::path::Path::new(env!("CARGO_MANIFEST_DIR")).join("../../examples/johnson8-2-4.clq");
    let text = std::fs::read(file).expect("the file of the example");
    assert!(text.starts_with(b"c "));
    hold_read(text, &instances::johnson8_2_4());
}

#[test]
fn worked_edges() {
    let ring = b"c five vertices in a ring\np edge 5 5\ne 1 2\ne 2 3\ne 3 4\ne 4 5\ne 5 1\n";
    hold_read(ring, &[0x12, 0x05, 0x0A, 0x14, 0x09]);
    let mut rows = [ROW; 7];
    assert_eq!(read_dimacs(ring, &mut rows), success(5, 0));
    assert_eq!(rows, [0x12, 0x05, 0x0A, 0x14, 0x09, ROW, ROW]);
    assert_eq!(read_dimacs(ring, &mut rows[..4]), refused((9, 5)));
    assert_eq!(read_dimacs(&ring[..ring.len() - 1], &mut rows), refused((15, 7)));
    assert_eq!(read_dimacs(&ring[..ring.len() - 6], &mut rows), refused((16, 0)));
    assert_eq!(read_dimacs(&ring[1..], &mut rows), refused((15, 1)));
    assert_eq!(read_dimacs(&ring[26..], &mut rows), success(5, 0));
    assert_eq!(read_dimacs(&ring[37..], &mut rows), refused((15, 1)));
    assert_eq!(read_dimacs(b"", &mut []), refused((15, 1)));
    assert_eq!(read_dimacs(b"p edge 1 0\n", &mut []), refused((9, 1)));
    assert_eq!(rows, [0x12, 0x05, 0x0A, 0x14, 0x09, ROW, ROW]);
    // vertices 1 and 64 are the lowest and the highest bit
    hold_read("p edge 64 1\ne 64 1\n", &single_edge(64, 0, 63));
    let longest = dimacs::write(&instances::complete(64));
    hold_read(&longest, &instances::complete(64));
    assert_eq!(lines_of(&longest).len(), 2017);
}

#[test]
fn random_graphs_some_of_them_damaged() {
    let (mut rng, mut numbers) = (Rng(37), [0; NUMBERS]);
    for _ in 0..many(10_000) {
        let most = if rng.chance(0.1) { 64 } else { 8 };
        let rows = graph(&mut rng, 1, most);
        let mut text = dimacs_text(&mut rng, &rows);
        for _ in 0..rng.below(3) {
            damage_dimacs(&mut rng, &mut text);
        }
        let room = rng.below(70);
        numbers[hold(&text, room)] += 1;
    }
    assert!((0..NUMBERS).all(|number| (numbers[number] > 10) == [0, 1, 9, 15, 16].contains(&number)), "{numbers:?}");
}
