//! Graphs in the DIMACS form, read and written by lines. A figure stays the text that it is, so that none is too long.
use crate::instances::connect;
use crate::plain::adjacent;
use crate::refusals::when;

/// The most that m can be.
const MOST_EDGES: &str = "4294967295";

/// What a line says that is laid out right.
enum Line<'a> {
    Comment,
    Problem { n: &'a str, m: &'a str },
    Edge { u: &'a str, v: &'a str },
}

/// Decimal digits, one at least, without leading zeros.
fn is_figure(field: &str) -> bool {
    let digits = !field.is_empty() && field.chars().all(|c| c.is_ascii_digit());
    digits && (field == "0" || !field.starts_with('0'))
}

/// Of two figures the longer is the greater, and of two as long the one that comes later by its digits.
fn at_most(figure: &str, most: &str) -> bool {
    (figure.len(), figure) <= (most.len(), most)
}

/// The figures of 1 to n.
fn figures_to(n: usize) -> Vec<String> {
    (1..=n).map(|i| i.to_string()).collect()
}

/// Which of these the figure is, from 0, or none.
fn place(figures: &[String], figure: &str) -> Option<usize> {
    figures.iter().position(|other| other == figure)
}

/// What the line says, given without its byte 10; none where it has another shape.
fn parse(line: &[u8]) -> Option<Line<'_>> {
    if line.starts_with(b"c") {
        return Some(Line::Comment);
    }
    let fields: Vec<&str> = std::str::from_utf8(line).ok()?.split(' ').collect();
    match fields[..] {
        ["p", "edge", n, m] if is_figure(n) && is_figure(m) && at_most(m, MOST_EDGES) => Some(Line::Problem { n, m }),
        ["e", u, v] if is_figure(u) && is_figure(v) => Some(Line::Edge { u, v }),
        _ => None,
    }
}

/// What the p line and the e lines so far say.
struct Graph<'a> {
    vertices: Vec<String>,
    rows: Vec<u64>,
    edges: usize,
    m: &'a str,
}

impl<'a> Graph<'a> {
    /// The graph of a p line, where n is 1 to 64.
    fn new(n: &str, m: &'a str) -> Option<Graph<'a>> {
        let n = place(&figures_to(64), n)? + 1;
        Some(Graph { vertices: figures_to(n), rows: vec![0; n], edges: 0, m })
    }

    /// Takes an e line, where its vertices are two of the graph's.
    fn join(&mut self, u: &str, v: &str) -> Option<()> {
        let (a, b) = (place(&self.vertices, u)?, place(&self.vertices, v)?);
        connect(&mut self.rows, a, b);
        self.edges += 1;
        (a != b).then_some(())
    }
}

/// Reads a text into a buffer for so many rows. The lines are what stands before each byte 10; what follows the last is a line without its byte 10.
pub fn read(text: &[u8], room: usize) -> Result<Vec<u64>, (usize, usize)> {
    let mut lines: Vec<&[u8]> = text.split(|&b| b == b'\n').collect();
    let cut_short = lines.pop().unwrap();
    let mut graph: Option<Graph> = None;
    for (l, line) in (1..).zip(&lines) {
        match (parse(line).ok_or((15, l))?, &mut graph) {
            (Line::Comment, _) => (),
            (Line::Problem { n, m }, None) => graph = Some(Graph::new(n, m).ok_or((1, 0))?),
            (Line::Edge { u, v }, Some(graph)) => graph.join(u, v).ok_or((15, l))?,
            _ => return Err((15, l)),
        }
    }
    let after = lines.len() + 1;
    let Some(Graph { rows, edges, m, .. }) = graph.filter(|_| cut_short.is_empty()) else {
        return Err((15, after));
    };
    match when(edges.to_string() != m, 16, 0).or_else(|| when(room < rows.len(), 9, rows.len())) {
        Some(refused) => Err(refused),
        None => Ok(rows),
    }
}

/// The edges of a graph with vertices from 1, the higher first, as the files of the challenge have them.
pub fn edges(rows: &[u64]) -> Vec<(usize, usize)> {
    let pairs = (0..rows.len()).flat_map(|a| (0..a).map(move |b| (a, b)));
    pairs.filter(|&(a, b)| adjacent(rows, a, b)).map(|(a, b)| (a + 1, b + 1)).collect()
}

pub fn problem_line(n: usize, m: usize) -> String {
    format!("p edge {n} {m}\n")
}

pub fn edge_line(&(u, v): &(usize, usize)) -> String {
    format!("e {u} {v}\n")
}

/// The lines of a graph without comments, each with its byte 10.
pub fn lines(rows: &[u64]) -> Vec<String> {
    let edges = edges(rows);
    [problem_line(rows.len(), edges.len())].into_iter().chain(edges.iter().map(edge_line)).collect()
}

pub fn write(rows: &[u64]) -> Vec<u8> {
    lines(rows).concat().into_bytes()
}
