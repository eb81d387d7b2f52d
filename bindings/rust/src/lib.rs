//! All maximal k-plexes of a graph of up to 64 vertices.
//!
//! A graph is a slice of n rows, n from 1 to 64: bit b of `rows[a]` is set where a and b are adjacent. No vertex is adjacent to itself, and
//! adjacency is mutual. A set of vertices is a `u64` in the same way, its mask. In a k-plex each member is adjacent to all members but at
//! most k, itself counted. The slack k is 1 to 5, and the floor q is 2k - 1 to 64.
//!
//! Some vertices may be silent; their set is a mask as well, and 0 where there is none. They hold a k-plex together like any other, but do not help it
//! over the floor: listed is a maximal k-plex of which at least q members are not silent.
//!
//! No call panics or has a condition that a caller must meet: what cannot be answered is refused, with a [`Refusal`]. The library below these
//! functions is proved; the proof says for every input what is answered and what every buffer then holds.
//!
//! ```
//! // five vertices in a ring, slack 2, floor 3
//! let ring = [0x12, 0x05, 0x0A, 0x14, 0x09];
//! let mut slots = [0; 8];
//! let m = kadvisk::list(&ring, 2, 3, 0, &mut slots)?;
//! assert_eq!(slots[..m], [0x07, 0x0E, 0x13, 0x19, 0x1C]);
//!
//! // vertex 3 is silent: the sets that hold it have two other members, and that is below the floor
//! let m = kadvisk::list(&ring, 2, 3, 0x08, &mut slots)?;
//! assert_eq!(slots[..m], [0x07, 0x13]);
//! # Ok::<(), kadvisk::Refusal>(())
//! ```
//!
//! A [`Book`] keeps the list of a graph through changes of its edges. [`read_dimacs`] reads a graph of the clique challenge.

pub mod ffi;

use std::fmt;

/// Why a call declines. Where several causes hold, the one that comes first in the order that the call gives is told.
#[derive(Clone, Copy, Debug, PartialEq, Eq, Hash)]
pub enum Refusal {
    /// 1: the number of rows, or n in a sheet or a DIMACS text, is not 1 to 64.
    Vertices,
    /// 2: the slack is not 1 to 5.
    Slack,
    /// 3: the floor is below 2k - 1 or above 64.
    Floor,
    /// 4: this row, the lowest such, has its own bit or a bit of n or above.
    Row(usize),
    /// 5: this row, the lowest such, has a vertex whose row lacks it.
    OneWay(usize),
    /// 6: there are fewer slots than maximal k-plexes to list, of which there are this many. The list makes all slots 0, and a change leaves the rows and
    /// the slots.
    Slots(usize),
    /// 7: a set, the silent one too, or a single vertex reaches n or above.
    Outside,
    /// 8: this line of the sheet, from 1, is the first that is not as laid out.
    Line(usize),
    /// 9: the buffer is too short; this length is needed.
    Room(usize),
    /// 10: s and v are no k-plex, v is not in c, or s and c overlap.
    Bound,
    /// 11: the forced set is no k-plex.
    Forced,
    /// 12: a and b are the same vertex.
    Loop,
    /// 13: the edge is already so: a and b are adjacent, or not, as was asked.
    Unchanged,
    /// 14: this row of a sheet, the lowest such, is 0: its vertex has no neighbour. The calls on rows take such a row.
    Isolated(usize),
    /// 15: this line of a DIMACS text, from 1, is the first that is wrong; where there is no p line, the one after the last.
    DimacsLine(usize),
    /// 16: a DIMACS text has not as many e lines as its p line says.
    EdgeCount,
}

impl Refusal {
    /// The refusal of this number and value; none where the number is not 1 to 14. Reading a graph in the DIMACS form tells 15 and 16 by itself.
    pub fn new(number: usize, value: usize) -> Option<Refusal> {
        Some(match number {
            1 => Refusal::Vertices,
            2 => Refusal::Slack,
            3 => Refusal::Floor,
            4 => Refusal::Row(value),
            5 => Refusal::OneWay(value),
            6 => Refusal::Slots(value),
            7 => Refusal::Outside,
            8 => Refusal::Line(value),
            9 => Refusal::Room(value),
            10 => Refusal::Bound,
            11 => Refusal::Forced,
            12 => Refusal::Loop,
            13 => Refusal::Unchanged,
            14 => Refusal::Isolated(value),
            _ => return None,
        })
    }

    /// The number of this refusal, 1 to 16.
    pub fn number(self) -> usize {
        match self {
            Refusal::Vertices => 1,
            Refusal::Slack => 2,
            Refusal::Floor => 3,
            Refusal::Row(_) => 4,
            Refusal::OneWay(_) => 5,
            Refusal::Slots(_) => 6,
            Refusal::Outside => 7,
            Refusal::Line(_) => 8,
            Refusal::Room(_) => 9,
            Refusal::Bound => 10,
            Refusal::Forced => 11,
            Refusal::Loop => 12,
            Refusal::Unchanged => 13,
            Refusal::Isolated(_) => 14,
            Refusal::DimacsLine(_) => 15,
            Refusal::EdgeCount => 16,
        }
    }

    /// The value that comes with it: a row, a count, a line or a length, and else 0.
    pub fn value(self) -> usize {
        match self {
            Refusal::Row(x) | Refusal::OneWay(x) | Refusal::Slots(x) | Refusal::Isolated(x) => x,
            Refusal::Line(x) | Refusal::DimacsLine(x) | Refusal::Room(x) => x,
            _ => 0,
        }
    }
}

impl fmt::Display for Refusal {
    fn fmt(&self, f: &mut fmt::Formatter) -> fmt::Result {
        match self {
            Refusal::Vertices => write!(f, "the number of vertices is not 1 to 64"),
            Refusal::Slack => write!(f, "the slack is not 1 to 5"),
            Refusal::Floor => write!(f, "the floor is below 2k - 1 or above 64"),
            Refusal::Row(a) => write!(f, "row {a} has its own bit, or a bit of n or above"),
            Refusal::OneWay(a) => write!(f, "row {a} has a vertex whose row lacks {a}"),
            Refusal::Slots(m) => write!(f, "there are {m} maximal k-plexes, more than slots"),
            Refusal::Outside => write!(f, "a set or a vertex reaches n or above"),
            Refusal::Line(l) => write!(f, "line {l} of the sheet is not as laid out"),
            Refusal::Room(n) => write!(f, "the buffer is too short: {n} are needed"),
            Refusal::Bound => write!(f, "s and v are no k-plex, v is not in c, or s and c overlap"),
            Refusal::Forced => write!(f, "the forced set is no k-plex"),
            Refusal::Loop => write!(f, "a and b are the same vertex"),
            Refusal::Unchanged => write!(f, "the edge is already so"),
            Refusal::Isolated(a) => write!(f, "row {a} is 0: vertex {a} has no neighbour"),
            Refusal::DimacsLine(l) => write!(f, "line {l} of the DIMACS text is wrong or missing"),
            Refusal::EdgeCount => write!(f, "there are not as many e lines as the p line says"),
        }
    }
}

impl std::error::Error for Refusal {}

/// The cuts of the search, each with its switch, for measuring. Every setting gives the same list; only the time differs.
#[derive(Clone, Copy, Debug, PartialEq, Eq)]
pub struct Cuts {
    /// Start from the core instead of all vertices.
    pub core: bool,
    /// Beside a vertex that is taken keep only its two-hop reach.
    pub reach: bool,
    /// Beside a vertex that is taken keep only those with enough common neighbours.
    pub pairs: bool,
    /// Skip a vertex whose second bound is below the floor.
    pub second: bool,
    /// Leave a branch whose partition bound is below the floor.
    pub parted: bool,
    /// Leave a branch to all of whose k-plexes one vertex can be added.
    pub extension: bool,
    /// At slack 1 take only the vertices that a pivot is not adjacent to. Of the other cuts only `core` then counts.
    pub pivot: bool,
}

impl Cuts {
    /// The cuts that are on, as the flags of `include/kadvisk.h`.
    pub fn flags(self) -> u64 {
        let Cuts { core, reach, pairs, second, parted, extension, pivot } = self;
        [core, reach, pairs, second, parted, extension, pivot].iter().rev().fold(0, |flags, &on| flags << 1 | u64::from(on))
    }
}

impl Default for Cuts {
    /// The setting of [`list`]: every cut but the second bound.
    fn default() -> Cuts {
        Cuts { core: true, reach: true, pairs: true, second: false, parted: true, extension: true, pivot: true }
    }
}

/// What lines 1 and 2 of a sheet say.
#[derive(Clone, Copy, Debug, PartialEq, Eq)]
pub struct Heading {
    pub vertices: usize,
    pub slack: usize,
    pub floor: usize,
    /// The mask of the silent vertices.
    pub silent: u64,
}

/// The core of a graph, for a slack and a floor.
#[derive(Clone, Copy, Debug, PartialEq, Eq)]
pub struct Core {
    /// Its mask.
    pub mask: u64,
    /// How many passes it took, the last of which took none: 1 where every vertex is in the core.
    pub passes: usize,
}

/// The largest k-plex that holds forced vertices.
#[derive(Clone, Copy, Debug, PartialEq, Eq)]
pub struct Largest {
    /// How many members it has.
    pub size: usize,
    /// The lowest mask of a k-plex of that size that holds them.
    pub mask: u64,
}

fn answered(number: usize, value: usize) -> Result<(), Refusal> {
    match Refusal::new(number, value) {
        None => Ok(()),
        Some(refusal) => Err(refusal),
    }
}

fn found(outcome: ffi::Outcome) -> Result<u64, Refusal> {
    answered(outcome.number, outcome.value).map(|()| outcome.found)
}

fn valued(outcome: ffi::Outcome) -> Result<usize, Refusal> {
    answered(outcome.number, outcome.value).map(|()| outcome.value)
}

// SAFETY, for each call below: a pointer and a length of one slice are passed, which is lent for the call, and the calls keep neither. They are
// proved to read and write within the slices, and ask nothing more of their caller.

/// How loose the set `s` is: the least k for which it is a k-plex, also one above the limit of slack. That is the most members that a member misses,
/// itself counted, and 0 for the empty set. So `s` is a k-plex where `looseness(rows, s)? <= k`.
///
/// ```
/// let ring = [0x12, 0x05, 0x0A, 0x14, 0x09];
/// assert_eq!(kadvisk::looseness(&ring, 0x07)?, 2);
/// assert_eq!(kadvisk::looseness(&ring, 0x1F)?, 3);
/// # Ok::<(), kadvisk::Refusal>(())
/// ```
///
/// Refusals, in this order: 1, 4, 5, 7.
pub fn looseness(rows: &[u64], s: u64) -> Result<usize, Refusal> {
    found(unsafe { ffi::kadvisk_looseness(rows.as_ptr(), rows.len(), s) }).map(|x| x as usize)
}

/// Is the set `s` a maximal k-plex, one that no other k-plex of the graph contains?
///
/// Refusals, in this order: 1, 2, 4, 5, 7.
pub fn is_maximal(rows: &[u64], slack: usize, s: u64) -> Result<bool, Refusal> {
    found(unsafe { ffi::kadvisk_is_maximal(rows.as_ptr(), rows.len(), slack, s) }).map(|x| x == 1)
}

/// The core: the largest set in which every member is adjacent to at least `floor - slack` members. It may be empty, and holds every k-plex of
/// `floor` or more members.
///
/// It is found in passes. A pass goes through the vertices left by rising number and takes out each that is adjacent to fewer than `floor - slack` of
/// those still left, before it looks at the next. The first pass that takes none is the last, and counts. So there is at least one, and there are at
/// most one more than vertices taken out.
///
/// ```
/// // a triangle of 0, 1 and 2, and a path from 2 to 3 and on to 4: a pass takes 4, the next 3, and the last none
/// let rows = [0x06, 0x05, 0x0B, 0x14, 0x08];
/// assert_eq!(kadvisk::core(&rows, 1, 3)?, kadvisk::Core { mask: 0x07, passes: 3 });
/// # Ok::<(), kadvisk::Refusal>(())
/// ```
///
/// Refusals, in this order: 1, 2, 3, 4, 5.
pub fn core(rows: &[u64], slack: usize, floor: usize) -> Result<Core, Refusal> {
    let outcome = unsafe { ffi::kadvisk_core(rows.as_ptr(), rows.len(), slack, floor) };
    answered(outcome.number, outcome.value).map(|()| Core { mask: outcome.core, passes: outcome.passes })
}

/// The two-hop reach of the vertex `v`: all vertices at most two edges away, itself included.
///
/// Refusals, in this order: 1, 4, 5, 7.
pub fn reach(rows: &[u64], v: usize) -> Result<u64, Refusal> {
    found(unsafe { ffi::kadvisk_reach(rows.as_ptr(), rows.len(), v) })
}

/// The first bound: no k-plex that holds `s` and `v` and has no vertex outside `s` and `c` has more vertices.
///
/// Refusals, in this order: 1, 2, 4, 5, 7, 10.
pub fn first_bound(rows: &[u64], slack: usize, s: u64, c: u64, v: usize) -> Result<usize, Refusal> {
    found(unsafe { ffi::kadvisk_first_bound(rows.as_ptr(), rows.len(), slack, s, c, v) }).map(|x| x as usize)
}

/// The second bound, which is never above the first: no k-plex that holds `s` and `v` and has no vertex outside `s` and `c` has more vertices.
///
/// Refusals, in this order: 1, 2, 4, 5, 7, 10.
pub fn second_bound(rows: &[u64], slack: usize, s: u64, c: u64, v: usize) -> Result<usize, Refusal> {
    found(unsafe { ffi::kadvisk_second_bound(rows.as_ptr(), rows.len(), slack, s, c, v) }).map(|x| x as usize)
}

/// Writes every maximal k-plex of which at least `floor` members are not `silent` to the first slots, as masks in rising order, each once, and gives
/// their number m. Later slots keep what they held.
///
/// Refusals, in this order: 1, 2, 3, 7 where `silent` reaches n, 4, 5, which leave the slots, and 6 with the exact m where there are fewer slots, which
/// makes all slots 0. So a call with no slots counts; [`list_all`] does both.
pub fn list(rows: &[u64], slack: usize, floor: usize, silent: u64, slots: &mut [u64]) -> Result<usize, Refusal> {
    valued(unsafe { ffi::kadvisk_list(rows.as_ptr(), rows.len(), slack, floor, silent, slots.as_mut_ptr(), slots.len()) })
}

/// As [`list`], with each cut of the search switched on or off.
pub fn list_with(rows: &[u64], slack: usize, floor: usize, silent: u64, cuts: Cuts, slots: &mut [u64]) -> Result<usize, Refusal> {
    valued(unsafe { ffi::kadvisk_list_with(rows.as_ptr(), rows.len(), slack, floor, silent, cuts.flags(), slots.as_mut_ptr(), slots.len()) })
}

/// How many maximal k-plexes there are of which at least `floor` members are not `silent`.
///
/// Refusals, in this order: 1, 2, 3, 7, 4, 5.
pub fn count(rows: &[u64], slack: usize, floor: usize, silent: u64) -> Result<usize, Refusal> {
    match list(rows, slack, floor, silent, &mut []) {
        Err(Refusal::Slots(m)) => Ok(m),
        other => other,
    }
}

/// Every maximal k-plex of which at least `floor` members are not `silent`, as masks in rising order: counted first, and then listed.
///
/// Refusals, in this order: 1, 2, 3, 7, 4, 5.
///
/// ```
/// // two triangles that share vertex 2, which is silent: it holds both together, and at floor 2 both are listed
/// let rows = [0x06, 0x05, 0x1B, 0x14, 0x0C];
/// assert_eq!(kadvisk::list_all(&rows, 1, 2, 0x04)?, [0x07, 0x1C]);
/// assert_eq!(kadvisk::list_all(&rows, 1, 3, 0x04)?, []);
/// # Ok::<(), kadvisk::Refusal>(())
/// ```
pub fn list_all(rows: &[u64], slack: usize, floor: usize, silent: u64) -> Result<Vec<u64>, Refusal> {
    let mut slots = vec![0; count(rows, slack, floor, silent)?];
    list(rows, slack, floor, silent, &mut slots)?;
    Ok(slots)
}

/// Makes `a` and `b` adjacent, or not adjacent, as `adjacent` says, in the rows of a book: a graph, a slack, a floor, silent vertices and their list,
/// which [`list`] opens. The first slots then hold the list of the changed graph, made afresh, whatever they held, and its number m is given. Other rows
/// and later slots keep what they held. A [`Book`] has all this in one object.
///
/// Refusals, in this order: 1, 2, 3, 7 where `silent` reaches n, 4, 5 of the book, 7 where `a` or `b` is n or above, 12, 13, and 6 with the exact new m
/// where there are fewer slots. Each leaves the rows and the slots as they were, 6 too.
///
/// ```
/// let mut rows = [0x12, 0x05, 0x0A, 0x14, 0x09];
/// let mut slots = [0; 8];
/// kadvisk::list(&rows, 2, 3, 0, &mut slots)?;
/// let m = kadvisk::change(&mut rows, 2, 3, 0, 0, 2, true, &mut slots)?;
/// assert_eq!(rows, [0x16, 0x05, 0x0B, 0x14, 0x09]);
/// assert_eq!(slots[..m], [0x07, 0x0E, 0x13, 0x1D]);
/// assert_eq!(kadvisk::change(&mut rows, 2, 3, 0, 0, 2, true, &mut slots), Err(kadvisk::Refusal::Unchanged));
/// # Ok::<(), kadvisk::Refusal>(())
/// ```
#[allow(clippy::too_many_arguments)] // as in C
pub fn change(rows: &mut [u64], slack: usize, floor: usize, silent: u64, a: usize, b: usize, adjacent: bool, slots: &mut [u64]) -> Result<usize, Refusal> {
    valued(unsafe { ffi::kadvisk_change(rows.as_mut_ptr(), rows.len(), slack, floor, silent, a, b, adjacent, slots.as_mut_ptr(), slots.len()) })
}

/// A graph, a slack, a floor, silent vertices and their list, in the caller's rows and slots: the list is kept through changes of the edges.
///
/// ```
/// // five vertices in a ring, slack 2, floor 3; then 0 and 2 are made adjacent
/// let mut rows = [0x12, 0x05, 0x0A, 0x14, 0x09];
/// let mut slots = [0; 8];
/// let mut book = kadvisk::Book::open(&mut rows, 2, 3, 0, &mut slots)?;
/// assert_eq!(book.list(), [0x07, 0x0E, 0x13, 0x19, 0x1C]);
/// book.change(0, 2, true)?;
/// assert_eq!(book.list(), [0x07, 0x0E, 0x13, 0x1D]);
///
/// // vertex 3 is silent
/// let mut book = kadvisk::Book::open(&mut rows, 2, 3, 0x08, &mut slots)?;
/// assert_eq!(book.list(), [0x07, 0x13, 0x1D]);
/// book.change(0, 2, false)?;
/// assert_eq!(book.list(), [0x07, 0x13]);
/// # Ok::<(), kadvisk::Refusal>(())
/// ```
#[derive(Debug)]
pub struct Book<'a> {
    rows: &'a mut [u64],
    slack: usize,
    floor: usize,
    silent: u64,
    slots: &'a mut [u64],
    listed: usize,
}

impl<'a> Book<'a> {
    /// Opens a book: the first slots become the list of the graph, as [`list`] makes it.
    ///
    /// Refusals, in this order: 1, 2, 3, 7, 4, 5, which leave the slots, and 6, which makes all slots 0.
    pub fn open(rows: &'a mut [u64], slack: usize, floor: usize, silent: u64, slots: &'a mut [u64]) -> Result<Book<'a>, Refusal> {
        let listed = list(rows, slack, floor, silent, slots)?;
        Ok(Book { rows, slack, floor, silent, slots, listed })
    }

    /// Makes `a` and `b` adjacent, or not adjacent, as `adjacent` says, and gives the number of masks in the new list.
    ///
    /// Refusals, in this order: 7, 12, 13, 6. Each leaves the book as it was: its graph, and its list.
    ///
    /// ```
    /// # let mut rows = [0x12, 0x05, 0x0A, 0x14, 0x09];
    /// # let mut slots = [0; 8];
    /// let mut book = kadvisk::Book::open(&mut rows, 2, 3, 0, &mut slots)?;
    /// assert_eq!(book.change(0, 1, true), Err(kadvisk::Refusal::Unchanged));
    /// assert_eq!(book.change(0, 2, true), Ok(4));
    /// assert_eq!(book.change(0, 2, false), Ok(5));
    /// assert_eq!(book.list(), [0x07, 0x0E, 0x13, 0x19, 0x1C]);
    /// # Ok::<(), kadvisk::Refusal>(())
    /// ```
    pub fn change(&mut self, a: usize, b: usize, adjacent: bool) -> Result<usize, Refusal> {
        self.listed = change(self.rows, self.slack, self.floor, self.silent, a, b, adjacent, self.slots)?;
        Ok(self.listed)
    }

    /// The list: every maximal k-plex of which at least the floor's members are not silent, as masks in rising order.
    pub fn list(&self) -> &[u64] {
        &self.slots[..self.listed]
    }

    /// The graph as it is now.
    pub fn rows(&self) -> &[u64] {
        self.rows
    }
}

/// The largest k-plex that holds all vertices of `forced`, and of the k-plexes of that size that hold them all the one with the lowest mask, which is a
/// maximal k-plex. Nothing is forced by the empty set, 0, and there is no floor.
///
/// Refusals, in this order: 1, 2, 4, 5, 7, 11.
///
/// ```
/// // five vertices in a ring, slack 2: three in a row are the most, and of those with vertex 2 the lowest are 0, 1 and 2
/// let ring = [0x12, 0x05, 0x0A, 0x14, 0x09];
/// let largest = kadvisk::largest(&ring, 2, 0x04)?;
/// assert_eq!((largest.size, largest.mask), (3, 0x07));
/// # Ok::<(), kadvisk::Refusal>(())
/// ```
pub fn largest(rows: &[u64], slack: usize, forced: u64) -> Result<Largest, Refusal> {
    let outcome = unsafe { ffi::kadvisk_largest(rows.as_ptr(), rows.len(), slack, forced) };
    found(outcome).map(|mask| Largest { size: outcome.value, mask })
}

/// Reads the sheet in `text`: n rows are stored in the first of `rows`, and later ones keep their contents.
///
/// Refusals, in this order: 8 at line 1, 1, 2, 3, 8 at another line, 7 where the silent vertices reach n, 4, 5, 14 where a row is 0, 9. Each leaves every
/// row as it was. A sheet of the time before line 2, which has the silent vertices, is 8 at line n + 2. A row that is 0 stands for a vertex that nobody
/// linked, an entry that is not finished: so a sheet of one vertex is always refused.
///
/// ```
/// let mut rows = [0; 64];
/// let sheet = b"020102\n0000000000000001\n0000000000000002\n0000000000000001\n";
/// let heading = kadvisk::read_sheet(sheet, &mut rows)?;
/// assert_eq!((heading.vertices, heading.slack, heading.floor, heading.silent), (2, 1, 2, 0x01));
/// assert_eq!(rows[..2], [0x02, 0x01]);
/// let old = b"020102\n0000000000000002\n0000000000000001\n";
/// assert_eq!(kadvisk::read_sheet(old, &mut rows), Err(kadvisk::Refusal::Line(4)));
///
/// // nobody linked vertex 2
/// let unlinked = b"030102\n0000000000000000\n0000000000000002\n0000000000000001\n0000000000000000\n";
/// assert_eq!(kadvisk::read_sheet(unlinked, &mut rows), Err(kadvisk::Refusal::Isolated(2)));
/// # Ok::<(), kadvisk::Refusal>(())
/// ```
pub fn read_sheet(text: &[u8], rows: &mut [u64]) -> Result<Heading, Refusal> {
    let read = unsafe { ffi::kadvisk_read_sheet(text.as_ptr(), text.len(), rows.as_mut_ptr(), rows.len()) };
    answered(read.number, read.value)?;
    Ok(Heading { vertices: read.vertices, slack: read.slack, floor: read.floor, silent: read.silent })
}

/// Writes the sheet of the graph and the request to the front of `text` and gives its length, 24 + 17n. Later bytes keep theirs.
///
/// Refusals, in this order: 1, 2, 3, 7 where `silent` reaches n, 4, 5, 14 where a row is 0, 9. Each leaves the whole text as it was. What is written is read
/// as it was by [`read_sheet`], and what that reads is written as it was, byte by byte.
///
/// ```
/// let mut text = [0; 75];
/// assert_eq!(kadvisk::write_sheet(&[0x06, 0x05, 0x03], 1, 2, 0, &mut text), Ok(75));
/// assert_eq!(&text[..24], b"030102\n0000000000000000\n");
///
/// // nobody linked vertex 2: such a graph has a list, and no sheet
/// let unlinked = [0x02, 0x01, 0x00];
/// assert_eq!(kadvisk::write_sheet(&unlinked, 1, 2, 0, &mut text), Err(kadvisk::Refusal::Isolated(2)));
/// assert_eq!(kadvisk::list_all(&unlinked, 1, 2, 0), Ok(vec![0x03]));
/// ```
pub fn write_sheet(rows: &[u64], slack: usize, floor: usize, silent: u64, text: &mut [u8]) -> Result<usize, Refusal> {
    valued(unsafe { ffi::kadvisk_write_sheet(rows.as_ptr(), rows.len(), slack, floor, silent, text.as_mut_ptr(), text.len()) })
}

/// Reads the graph in `text`, which is in the DIMACS form of the clique challenge: n rows are stored in the first of `rows`, n is given, and later rows keep
/// their contents. Vertices are numbered from 1 in the text, so that its vertex v is vertex v - 1 of the rows.
///
/// A line that starts with `c` is a comment, and may stand anywhere. There is one line `p edge n m`, and after it a line `e u v` for each edge. Fields are
/// parted by one blank, figures are decimal without leading zeros and of any length, m is at most 4,294,967,295, and every line ends in byte 10. An edge that
/// is repeated, either way round, counts as often, and is set once. A vertex may be without an edge.
///
/// Refusals, as they are met from line 1 on: 15 with the line where it has another shape or no byte 10 (an empty line, a second blank, a blank at the end and
/// byte 13 are other shapes), a vertex is not 1 to n, u is v, or it is an e line before the p line or a second p line; 1 at the p line, once all of that line
/// has passed. At the end 15 with the line after the last where there is no p line, then 16, and then 9. Each leaves every row as it was.
///
/// ```
/// let mut rows = [0; 64];
/// let ring = b"c five vertices in a ring\np edge 5 5\ne 1 2\ne 2 3\ne 3 4\ne 4 5\ne 5 1\n";
/// let n = kadvisk::read_dimacs(ring, &mut rows)?;
/// assert_eq!(rows[..n], [0x12, 0x05, 0x0A, 0x14, 0x09]);
/// assert_eq!(kadvisk::count(&rows[..n], 2, 3, 0), Ok(5));
///
/// // without its last line, and without the last byte 10
/// assert_eq!(kadvisk::read_dimacs(&ring[..ring.len() - 6], &mut rows), Err(kadvisk::Refusal::EdgeCount));
/// assert_eq!(kadvisk::read_dimacs(&ring[..ring.len() - 1], &mut rows), Err(kadvisk::Refusal::DimacsLine(7)));
/// # Ok::<(), kadvisk::Refusal>(())
/// ```
pub fn read_dimacs(text: &[u8], rows: &mut [u64]) -> Result<usize, Refusal> {
    let outcome = unsafe { ffi::kadvisk_read_dimacs(text.as_ptr(), text.len(), rows.as_mut_ptr(), rows.len()) };
    match outcome.number {
        15 => Err(Refusal::DimacsLine(outcome.value)),
        16 => Err(Refusal::EdgeCount),
        _ => valued(outcome),
    }
}
