//! A book as it lies in lent memory, and what a change owes it: the outcome, the rows and the slots, by plain Rust alone.
use crate::calls::{self, refused, success};
use crate::{cliques, fp, plain, refusals};
use kadvisk::ffi::Outcome;

/// A graph, a slack, a floor, silent vertices and slots for their list.
#[derive(Clone, Debug, PartialEq, Eq)]
pub struct Book {
    pub rows: Vec<u64>,
    pub slack: usize,
    pub floor: usize,
    pub silent: u64,
    pub slots: Vec<u64>,
}

/// Two vertices, and whether they are to be adjacent.
#[derive(Clone, Copy, Debug, PartialEq, Eq)]
pub struct Change {
    pub a: usize,
    pub b: usize,
    pub adjacent: bool,
}

/// The list by an independent implementation for up to 64 vertices, rising: all maximal k-plexes of q or more members, and of them those in which so many
/// are not silent.
pub fn list(rows: &[u64], k: usize, q: usize, silent: u64) -> Vec<u64> {
    let mut found = vec![];
    let mut out = |t| found.push(t);
    if k == 1 {
        cliques::run(rows, q, &mut out);
    } else {
        fp::run(rows, k, q, &mut out);
    }
    found.retain(|&t| plain::recorded(t, silent) >= q);
    found.sort_unstable();
    found
}

impl Change {
    /// The change of a pair to what it is not.
    pub fn of(rows: &[u64], a: usize, b: usize) -> Change {
        Change { a, b, adjacent: !plain::adjacent(rows, a, b) }
    }

    /// The change back.
    pub fn back(self) -> Change {
        Change { adjacent: !self.adjacent, ..self }
    }

    /// The changed graph: each pair but this one is as it was.
    pub fn graph(self, rows: &[u64]) -> Vec<u64> {
        let named = |v, w| (v, w) == (self.a, self.b) || (w, v) == (self.a, self.b);
        let adjacent = |v: usize, w: usize| if named(v, w) { self.adjacent } else { plain::adjacent(rows, v, w) };
        (0..rows.len()).map(|v| plain::mask(&(0..64).filter(|&w| adjacent(v, w)).collect::<Vec<_>>())).collect()
    }
}

impl Book {
    /// Changes the book by the exported call.
    pub fn change(&mut self, Change { a, b, adjacent }: Change) -> Outcome {
        calls::change(&mut self.rows, self.slack, self.floor, self.silent, a, b, adjacent, &mut self.slots)
    }

    /// The outcome that a change owes, and the book after it. The list of the changed graph is asked for where nothing but the slots can be refused.
    pub fn owed(&self, change: Change, list: impl FnOnce(&[u64], usize, usize, u64) -> Vec<u64>) -> (Outcome, Book) {
        let Change { a, b, adjacent } = change;
        if let Some(refusal) = refusals::change(&self.rows, self.slack, self.floor, self.silent, a, b, adjacent) {
            return (refused(refusal), self.clone());
        }
        let rows = change.graph(&self.rows);
        let mut slots = list(&rows, self.slack, self.floor, self.silent);
        let m = slots.len();
        if self.slots.len() < m {
            return (refused((6, m)), self.clone());
        }
        slots.extend(&self.slots[m..]);
        (success(m, 0), Book { rows, slots, ..*self })
    }
}
