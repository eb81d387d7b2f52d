//! Sheets, read and written by lines.
use crate::refusals::{numbers, reading, when};

/// What a sheet says.
#[derive(Clone, Debug, PartialEq, Eq)]
pub struct Sheet {
    pub rows: Vec<u64>,
    pub slack: usize,
    pub floor: usize,
    pub silent: u64,
}

pub fn write(rows: &[u64], k: usize, q: usize, silent: u64) -> Vec<u8> {
    let lines: String = [silent].iter().chain(rows).map(|mask| format!("{mask:016X}\n")).collect();
    format!("{:02X}{k:02X}{q:02X}\n{lines}", rows.len()).into_bytes()
}

/// The number in a line of this many capital hexadecimal digits, or none.
fn number(line: &[u8], digits: usize) -> Option<u64> {
    let text = std::str::from_utf8(line).ok()?;
    let right = text.len() == digits && text.chars().all(|c| c.is_ascii_digit() || ('A'..='F').contains(&c));
    right.then(|| u64::from_str_radix(text, 16).unwrap())
}

/// Reads a text into a buffer for so many rows. The lines are what stands before each byte 10; what follows the last is cut short.
pub fn read(text: &[u8], room: usize) -> Result<Sheet, (usize, usize)> {
    let mut lines: Vec<&[u8]> = text.split(|&b| b == b'\n').collect();
    let cut_short = lines.pop().unwrap();
    let heading = lines.first().and_then(|line| number(line, 6)).ok_or((8, 1))? as usize;
    let (n, k, q) = (heading >> 16, heading >> 8 & 255, heading & 255);
    if let Some(refused) = numbers(n, k, q) {
        return Err(refused);
    }
    let mask = |line: usize| lines.get(line - 1).and_then(|line| number(line, 16)).ok_or((8, line));
    let silent = mask(2)?;
    let rows = (0..n).map(|a| mask(a + 3)).collect::<Result<Vec<u64>, _>>()?;
    let more = lines.len() > n + 2 || !cut_short.is_empty();
    match when(more, 8, n + 3).or_else(|| reading(&rows, silent)).or_else(|| when(room < n, 9, n)) {
        Some(refused) => Err(refused),
        None => Ok(Sheet { rows, slack: k, floor: q, silent }),
    }
}
