//! What a call gives, held to what is wanted.
use crate::calls::{self, refused, success};

const GARBAGE: u64 = 0xDEAD_BEEF_0BAD_F00D;

/// Holds the call that lists to the list that is wanted: into more slots than needed, into just as many, into one less, and into none.
pub fn list(rows: &[u64], k: usize, q: usize, silent: u64, want: &[u64]) {
    let m = want.len();
    let call = |slots: &mut [u64]| calls::list(rows, k, q, silent, slots);
    let mut slots = vec![GARBAGE; m + 3];
    assert_eq!(call(&mut slots), success(m, 0), "{rows:X?} k={k} q={q} silent={silent:X}");
    assert_eq!(&slots[..m], want, "{rows:X?} k={k} q={q} silent={silent:X}");
    assert_eq!(slots[m..], [GARBAGE; 3], "slots beyond the list");
    let mut exact = vec![GARBAGE; m];
    assert_eq!(call(&mut exact), success(m, 0));
    assert_eq!(exact, want);
    if m > 0 {
        let mut short = vec![GARBAGE; m - 1];
        assert_eq!(call(&mut short), refused((6, m)));
        assert!(short.iter().all(|&slot| slot == 0), "all slots become 0");
        assert_eq!(call(&mut []), refused((6, m)));
    } else {
        assert_eq!(call(&mut []), success(0, 0));
    }
}

/// The same of the call with cuts, for these flags: into one slot more than needed, and into one less.
pub fn list_with(rows: &[u64], k: usize, q: usize, silent: u64, flags: u64, want: &[u64]) {
    let m = want.len();
    let mut slots = vec![GARBAGE; m + 1];
    assert_eq!(calls::list_with(rows, k, q, silent, flags, &mut slots), success(m, 0), "flags {flags} {rows:X?} k={k} q={q} silent={silent:X}");
    assert_eq!(&slots[..m], want, "flags {flags} {rows:X?} k={k} q={q} silent={silent:X}");
    assert_eq!(slots[m], GARBAGE);
    let mut short = vec![GARBAGE; m.saturating_sub(1)];
    let outcome = calls::list_with(rows, k, q, silent, flags, &mut short);
    assert_eq!(outcome, if m == 0 { success(0, 0) } else { refused((6, m)) });
    assert!(short.iter().all(|&slot| slot == 0), "all slots become 0");
}
