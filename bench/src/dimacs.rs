//! Reading a graph in the DIMACS form: the call against two plain parsers that make the same checks and store rows only on success. One takes a line and then
//! its fields, the other goes through the bytes once.
use crate::turns;
use outside::cases::{damage_dimacs, shuffle};
use outside::dimacs::{edge_line, edges, problem_line};
use outside::instances::{self, Rng};

/// n, or the number and the value of a refusal.
type Read = Result<usize, (usize, usize)>;

/// A reader of texts into rows.
type Reader = fn(&[u8], &mut [u64]) -> Read;

/// The most that m can be.
const MOST_EDGES: u64 = 4_294_967_295;

/// What the lines so far have said.
struct Graph {
    n: u64,
    m: u64,
    read: u64,
    table: [u64; 64],
}

impl Graph {
    /// Before the p line n is 0, so that no vertex is one of 1 to n.
    fn new() -> Graph {
        Graph { n: 0, m: 0, read: 0, table: [0; 64] }
    }

    /// A p line, as line l.
    fn problem(&mut self, l: usize, n: u64, m: u64) -> Result<(), (usize, usize)> {
        if m > MOST_EDGES || self.n > 0 {
            return Err((15, l));
        }
        if !(1..=64).contains(&n) {
            return Err((1, 0));
        }
        (self.n, self.m) = (n, m);
        Ok(())
    }

    /// An e line, as line l.
    fn edge(&mut self, l: usize, u: u64, v: u64) -> Result<(), (usize, usize)> {
        let vertices = 1..=self.n;
        if !vertices.contains(&u) || !vertices.contains(&v) || u == v {
            return Err((15, l));
        }
        self.table[u as usize - 1] |= 1 << (v - 1);
        self.table[v as usize - 1] |= 1 << (u - 1);
        self.read += 1;
        Ok(())
    }

    /// The end, at line l.
    fn store(&self, l: usize, rows: &mut [u64]) -> Read {
        let n = self.n as usize;
        if n == 0 {
            return Err((15, l));
        }
        if self.read != self.m {
            return Err((16, 0));
        }
        let lent = rows.get_mut(..n).ok_or((9, n))?;
        lent.copy_from_slice(&self.table[..n]);
        Ok(n)
    }
}

/// The number that the field is as a figure. A long one is told as the greatest number, which is out of every range.
fn figure(field: &[u8]) -> Option<u64> {
    match field {
        [] | [b'0', _, ..] => None,
        _ => field.iter().try_fold(0u64, |x, byte| byte.is_ascii_digit().then(|| x.saturating_mul(10).saturating_add(u64::from(byte - b'0')))),
    }
}

/// Two figures parted by one blank.
fn pair(fields: &[u8]) -> Option<(u64, u64)> {
    let blank = fields.iter().position(|&byte| byte == b' ')?;
    Some((figure(&fields[..blank])?, figure(&fields[blank + 1..])?))
}

/// Reads by lines and fields.
#[inline(never)]
fn by_lines(text: &[u8], rows: &mut [u64]) -> Read {
    let (mut graph, mut rest, mut l) = (Graph::new(), text, 1);
    while !rest.is_empty() {
        let end = rest.iter().position(|&byte| byte == b'\n').ok_or((15, l))?;
        let line = &rest[..end];
        if let Some(fields) = line.strip_prefix(b"e ") {
            let (u, v) = pair(fields).ok_or((15, l))?;
            graph.edge(l, u, v)?;
        } else if let Some(fields) = line.strip_prefix(b"p edge ") {
            let (n, m) = pair(fields).ok_or((15, l))?;
            graph.problem(l, n, m)?;
        } else if !line.starts_with(b"c") {
            return Err((15, l));
        }
        rest = &rest[end + 1..];
        l += 1;
    }
    graph.store(l, rows)
}

/// A place in a text.
struct Cursor<'a> {
    text: &'a [u8],
    at: usize,
}

impl Cursor<'_> {
    /// Takes these bytes, where they come next.
    fn take(&mut self, bytes: &[u8]) -> Option<()> {
        let next = self.text[self.at..].starts_with(bytes);
        next.then(|| self.at += bytes.len())
    }

    /// Takes a figure.
    fn figure(&mut self) -> Option<u64> {
        let (start, mut x) = (self.at, 0u64);
        while let Some(byte @ b'0'..=b'9') = self.text.get(self.at) {
            x = x.saturating_mul(10).saturating_add(u64::from(byte - b'0'));
            self.at += 1;
        }
        let padded = self.at - start > 1 && self.text[start] == b'0';
        (self.at > start && !padded).then_some(x)
    }

    /// Takes two figures and the end of the line.
    fn pair(&mut self) -> Option<(u64, u64)> {
        let first = self.figure()?;
        self.take(b" ")?;
        let second = self.figure()?;
        self.take(b"\n")?;
        Some((first, second))
    }

    /// Takes all up to the end of the line.
    fn skip(&mut self) -> Option<()> {
        self.at += self.text[self.at..].iter().position(|&byte| byte == b'\n')? + 1;
        Some(())
    }
}

/// Reads byte by byte.
#[inline(never)]
fn by_bytes(text: &[u8], rows: &mut [u64]) -> Read {
    let (mut graph, mut cursor, mut l) = (Graph::new(), Cursor { text, at: 0 }, 1);
    while cursor.at < text.len() {
        if cursor.take(b"e ").is_some() {
            let (u, v) = cursor.pair().ok_or((15, l))?;
            graph.edge(l, u, v)?;
        } else if cursor.take(b"c").is_some() {
            cursor.skip().ok_or((15, l))?;
        } else {
            cursor.take(b"p edge ").ok_or((15, l))?;
            let (n, m) = cursor.pair().ok_or((15, l))?;
            graph.problem(l, n, m)?;
        }
        l += 1;
    }
    graph.store(l, rows)
}

fn by_call(text: &[u8], rows: &mut [u64]) -> Read {
    kadvisk::read_dimacs(text, rows).map_err(|refusal| (refusal.number(), refusal.value()))
}

/// Texts of one kind, read one after the other.
struct Row {
    name: &'static str,
    texts: Vec<Vec<u8>>,
}

/// The text of a graph, with `comment` before every so many e lines.
fn text(rows: &[u64], comment: &str, every: usize) -> Vec<u8> {
    let edges = edges(rows);
    let mut lines = problem_line(rows.len(), edges.len());
    for part in edges.chunks(every) {
        lines += comment;
        part.iter().for_each(|edge| lines += &edge_line(edge));
    }
    lines.into_bytes()
}

/// The same with the e lines in random order and either way round.
fn shuffled(rows: &[u64], seed: u64) -> Vec<u8> {
    let (mut rng, mut edges) = (Rng(seed), edges(rows));
    shuffle(&mut rng, &mut edges);
    let turned = edges.iter().map(|&(u, v)| if rng.chance(0.5) { (u, v) } else { (v, u) });
    let lines: String = turned.map(|edge| edge_line(&edge)).collect();
    (problem_line(rows.len(), edges.len()) + &lines).into_bytes()
}

fn rows() -> Vec<Row> {
    let complete = instances::complete(64);
    let plain = |rows: &[u64]| text(rows, "", usize::MAX);
    let short = "c a comment of some forty bytes, such as it is\n";
    let long = format!("c{}\n", " long".repeat(200));
    let half = |seed| instances::random(64, 0.5, seed);
    vec![
        Row { name: "complete", texts: vec![plain(&complete)] },
        Row { name: "complete, shuffled", texts: (1..=8).map(|seed| shuffled(&complete, seed)).collect() },
        Row { name: "complete, a comment before each edge", texts: vec![text(&complete, short, 1)] },
        Row { name: "complete, 126 comments of 1,000 bytes", texts: vec![text(&complete, &long, 16)] },
        Row { name: "random 0.5", texts: (1..=8).map(|seed| plain(&half(seed))).collect() },
        Row { name: "random 0.5, shuffled", texts: (1..=8).map(|seed| shuffled(&half(seed), seed)).collect() },
        Row { name: "hamming6-2", texts: vec![plain(&instances::hamming6(2))] },
        Row { name: "no edge, 2,016 comments", texts: vec![format!("{}p edge 64 0\n", short.repeat(2016)).into_bytes()] },
    ]
}

/// The three read alike, right texts and damaged ones: what is timed makes the same checks.
fn agree(rows: &[Row]) {
    let mut rng = Rng(8);
    for text in rows.iter().flat_map(|row| &row.texts) {
        for damages in 0..50 {
            let mut text = text.clone();
            (0..damages.min(3)).for_each(|_| damage_dimacs(&mut rng, &mut text));
            let with = |reader: Reader| {
                let mut lent = [7; 65];
                (reader(&text, &mut lent), lent)
            };
            assert_eq!(with(by_call), with(by_lines));
            assert_eq!(with(by_call), with(by_bytes));
        }
    }
}

/// The time of the call in ms, and as a multiple of that of a plain parser, in turns.
fn times(row: &Row, plain: Reader) -> (f64, f64) {
    let read = |reader: Reader| {
        let one = |text: &Vec<u8>| reader(std::hint::black_box(text), std::hint::black_box(&mut [0; 64])).expect("a graph");
        row.texts.iter().map(one).sum()
    };
    let (time, ratios) = turns(2, 1000.0, |at| read(if at == 0 { plain } else { by_call }));
    (time * ratios[1] / row.texts.len() as f64, ratios[1])
}

/// Prints a row, and gives both ratios.
fn line(row: &Row) -> [f64; 2] {
    let many = row.texts.len();
    let bytes = row.texts.iter().map(Vec::len).sum::<usize>() / many;
    let lines = row.texts.iter().flatten().filter(|&&byte| byte == b'\n').count() / many;
    let [(time, first), (_, second)] = [by_lines as Reader, by_bytes].map(|plain| times(row, plain));
    println!("| {} | {lines} | {bytes} | {:.2} | {first:.2} | {second:.2} |", row.name, time * 1e3);
    [first, second]
}

pub fn all() {
    println!("\n## Graphs in the DIMACS form\n");
    println!(
        "Graphs of 64 vertices: the lines and bytes of a text, the time of reading it in µs, and as a multiple of that of plain Rust which makes the same"
    );
    println!("checks: by lines and fields, and byte by byte.\n");
    println!("| text | lines | bytes | reading, µs | to by lines | to byte by byte |\n|---|---|---|---|---|---|");
    let rows = rows();
    agree(&rows);
    let ratios: Vec<[f64; 2]> = rows.iter().map(line).collect();
    println!();
    for (at, name) in ["by lines", "byte by byte"].iter().enumerate() {
        let mean = (ratios.iter().map(|row| row[at].ln()).sum::<f64>() / ratios.len() as f64).exp();
        let most = ratios.iter().map(|row| row[at]).fold(0.0, f64::max);
        println!("- against the parser {name}: {mean:.2} in the geometric mean of {} rows, {most:.2} at most", ratios.len());
    }
}
