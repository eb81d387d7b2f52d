//! The exported calls as they are, as in `include/kadvisk.h`. A lent slice is a pointer and then a length. The safe functions of this crate
//! call these; use them where the plain numbers of an outcome are wanted.

/// The outcome of a call. `number` is 0 for a success and else the number of the refusal; `found` is 0 with a refusal.
#[repr(C)]
#[derive(Clone, Copy, Debug, PartialEq, Eq)]
pub struct Outcome {
    pub number: usize,
    pub value: usize,
    pub found: u64,
}

/// The outcome of a question for the core. The last two are 0 with a refusal.
#[repr(C)]
#[derive(Clone, Copy, Debug, PartialEq, Eq)]
pub struct CoreOutcome {
    pub number: usize,
    pub value: usize,
    pub core: u64,
    pub passes: usize,
}

/// The outcome of reading a sheet. The last four are 0 with a refusal.
#[repr(C)]
#[derive(Clone, Copy, Debug, PartialEq, Eq)]
pub struct ReadOutcome {
    pub number: usize,
    pub value: usize,
    pub vertices: usize,
    pub slack: usize,
    pub floor: usize,
    pub silent: u64,
}

extern "C" {
    pub fn kadvisk_looseness(rows: *const u64, n: usize, s: u64) -> Outcome;
    pub fn kadvisk_is_maximal(rows: *const u64, n: usize, slack: usize, s: u64) -> Outcome;
    pub fn kadvisk_core(rows: *const u64, n: usize, slack: usize, floor: usize) -> CoreOutcome;
    pub fn kadvisk_reach(rows: *const u64, n: usize, v: usize) -> Outcome;
    pub fn kadvisk_first_bound(rows: *const u64, n: usize, slack: usize, s: u64, c: u64, v: usize) -> Outcome;
    pub fn kadvisk_second_bound(rows: *const u64, n: usize, slack: usize, s: u64, c: u64, v: usize) -> Outcome;
    pub fn kadvisk_list(rows: *const u64, n: usize, slack: usize, floor: usize, silent: u64, slots: *mut u64, room: usize) -> Outcome;
    pub fn kadvisk_list_with(rows: *const u64, n: usize, slack: usize, floor: usize, silent: u64, flags: u64, slots: *mut u64, room: usize) -> Outcome;
    pub fn kadvisk_change(
        rows: *mut u64,
        n: usize,
        slack: usize,
        floor: usize,
        silent: u64,
        a: usize,
        b: usize,
        adjacent: bool,
        slots: *mut u64,
        room: usize,
    ) -> Outcome;
    pub fn kadvisk_largest(rows: *const u64, n: usize, slack: usize, forced: u64) -> Outcome;
    pub fn kadvisk_read_sheet(text: *const u8, length: usize, rows: *mut u64, room: usize) -> ReadOutcome;
    pub fn kadvisk_write_sheet(rows: *const u64, n: usize, slack: usize, floor: usize, silent: u64, text: *mut u8, room: usize) -> Outcome;
    pub fn kadvisk_read_dimacs(text: *const u8, length: usize, rows: *mut u64, room: usize) -> Outcome;
}
