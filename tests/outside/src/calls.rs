//! The exported calls on slices, with the plain numbers of their outcomes.
use kadvisk::ffi::{self, CoreOutcome, Outcome, ReadOutcome};

pub fn looseness(rows: &[u64], s: u64) -> Outcome {
    unsafe { ffi::kadvisk_looseness(rows.as_ptr(), rows.len(), s) }
}

pub fn is_maximal(rows: &[u64], k: usize, s: u64) -> Outcome {
    unsafe { ffi::kadvisk_is_maximal(rows.as_ptr(), rows.len(), k, s) }
}

pub fn core(rows: &[u64], k: usize, q: usize) -> CoreOutcome {
    unsafe { ffi::kadvisk_core(rows.as_ptr(), rows.len(), k, q) }
}

pub fn reach(rows: &[u64], v: usize) -> Outcome {
    unsafe { ffi::kadvisk_reach(rows.as_ptr(), rows.len(), v) }
}

pub fn first_bound(rows: &[u64], k: usize, s: u64, c: u64, v: usize) -> Outcome {
    unsafe { ffi::kadvisk_first_bound(rows.as_ptr(), rows.len(), k, s, c, v) }
}

pub fn second_bound(rows: &[u64], k: usize, s: u64, c: u64, v: usize) -> Outcome {
    unsafe { ffi::kadvisk_second_bound(rows.as_ptr(), rows.len(), k, s, c, v) }
}

pub fn list(rows: &[u64], k: usize, q: usize, silent: u64, slots: &mut [u64]) -> Outcome {
    unsafe { ffi::kadvisk_list(rows.as_ptr(), rows.len(), k, q, silent, slots.as_mut_ptr(), slots.len()) }
}

pub fn list_with(rows: &[u64], k: usize, q: usize, silent: u64, flags: u64, slots: &mut [u64]) -> Outcome {
    unsafe { ffi::kadvisk_list_with(rows.as_ptr(), rows.len(), k, q, silent, flags, slots.as_mut_ptr(), slots.len()) }
}

#[allow(clippy::too_many_arguments)] // as in C
pub fn change(rows: &mut [u64], k: usize, q: usize, silent: u64, a: usize, b: usize, adjacent: bool, slots: &mut [u64]) -> Outcome {
    unsafe { ffi::kadvisk_change(rows.as_mut_ptr(), rows.len(), k, q, silent, a, b, adjacent, slots.as_mut_ptr(), slots.len()) }
}

pub fn largest(rows: &[u64], k: usize, forced: u64) -> Outcome {
    unsafe { ffi::kadvisk_largest(rows.as_ptr(), rows.len(), k, forced) }
}

pub fn read_sheet(text: &[u8], rows: &mut [u64]) -> ReadOutcome {
    unsafe { ffi::kadvisk_read_sheet(text.as_ptr(), text.len(), rows.as_mut_ptr(), rows.len()) }
}

pub fn write_sheet(rows: &[u64], k: usize, q: usize, silent: u64, text: &mut [u8]) -> Outcome {
    unsafe { ffi::kadvisk_write_sheet(rows.as_ptr(), rows.len(), k, q, silent, text.as_mut_ptr(), text.len()) }
}

pub fn read_dimacs(text: &[u8], rows: &mut [u64]) -> Outcome {
    unsafe { ffi::kadvisk_read_dimacs(text.as_ptr(), text.len(), rows.as_mut_ptr(), rows.len()) }
}

/// The outcome of a success.
pub fn success(value: usize, found: u64) -> Outcome {
    Outcome { number: 0, value, found }
}

/// The outcome of a core that is found.
pub fn cored((core, passes): (u64, usize)) -> CoreOutcome {
    CoreOutcome { number: 0, value: 0, core, passes }
}

/// The outcome of a core that is refused: no pass is made.
pub fn core_refused((number, value): (usize, usize)) -> CoreOutcome {
    CoreOutcome { number, value, core: 0, passes: 0 }
}

/// The outcome of a refusal.
pub fn refused((number, value): (usize, usize)) -> Outcome {
    Outcome { number, value, found: 0 }
}

/// The outcome of a refusal to read.
pub fn unread((number, value): (usize, usize)) -> ReadOutcome {
    ReadOutcome { number, value, vertices: 0, slack: 0, floor: 0, silent: 0 }
}

/// The outcome of a sheet that is read.
pub fn read(vertices: usize, slack: usize, floor: usize, silent: u64) -> ReadOutcome {
    ReadOutcome { number: 0, value: 0, vertices, slack, floor, silent }
}
