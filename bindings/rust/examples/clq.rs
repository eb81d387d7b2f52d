//! Lists all maximal k-plexes of a graph in a DIMACS file that have at least FLOOR vertices:
//!
//!   clq FILE.clq SLACK FLOOR
//!
//! Prints their number m on a line, and then each on a line, as its vertices by the numbers that the file has, from 1. What is wrong is told on standard
//! error, with exit status 1; a command line of another form has exit status 2.
use kadvisk::Refusal;
use std::ffi::OsString;
use std::io::{ErrorKind, Write};
use std::path::{Path, PathBuf};
use std::process::ExitCode;

/// Slots at first. Where they are too few, the refusal tells how many there must be.
const SLOTS: usize = 4096;

/// So much of a wrong line is shown.
const SHOWN: usize = 60;

/// What is wrong with the text: the refusal, and the line that it tells, where there is one.
fn complaint(text: &[u8], refusal: Refusal) -> String {
    let line = match refusal {
        Refusal::DimacsLine(l) => text.split(|&byte| byte == b'\n').nth(l - 1).filter(|line| !line.is_empty()),
        _ => None,
    };
    match line {
        Some(line) => format!("{refusal}: \"{}\"", line[..line.len().min(SHOWN)].escape_ascii()),
        None => refusal.to_string(),
    }
}

/// The graph in the file.
fn read(file: &Path) -> Result<Vec<u64>, String> {
    let text = std::fs::read(file).map_err(|error| error.to_string())?;
    let mut rows = vec![0; 64];
    let n = kadvisk::read_dimacs(&text, &mut rows).map_err(|refusal| complaint(&text, refusal))?;
    rows.truncate(n);
    Ok(rows)
}

/// The list, in as many slots as it takes.
fn list(rows: &[u64], slack: usize, floor: usize) -> Result<Vec<u64>, Refusal> {
    let mut slots = vec![0; SLOTS];
    loop {
        match kadvisk::list(rows, slack, floor, 0, &mut slots) {
            Ok(m) => {
                slots.truncate(m);
                return Ok(slots);
            }
            Err(Refusal::Slots(m)) => slots.resize(m, 0),
            Err(refusal) => return Err(refusal),
        }
    }
}

/// The vertices of a mask, as the file numbers them.
fn vertices(mask: u64) -> String {
    let numbers: Vec<String> = (0..64).filter(|v| mask >> v & 1 == 1).map(|v| (v + 1).to_string()).collect();
    numbers.join(" ")
}

fn print(list: &[u64]) -> std::io::Result<()> {
    let mut out = std::io::BufWriter::new(std::io::stdout().lock());
    writeln!(out, "{}", list.len())?;
    for &mask in list {
        writeln!(out, "{}", vertices(mask))?;
    }
    out.flush()
}

fn run(file: &Path, slack: usize, floor: usize) -> Result<(), String> {
    let rows = read(file)?;
    let list = list(&rows, slack, floor).map_err(|refusal| refusal.to_string())?;
    match print(&list) {
        // who reads on has seen enough
        Err(error) if error.kind() == ErrorKind::BrokenPipe => Ok(()),
        printed => printed.map_err(|error| error.to_string()),
    }
}

/// The file, the slack and the floor.
fn arguments() -> Option<(PathBuf, usize, usize)> {
    let words: Vec<OsString> = std::env::args_os().skip(1).collect();
    let [file, slack, floor] = &words[..] else { return None };
    let number = |word: &OsString| word.to_str()?.parse().ok();
    Some((file.into(), number(slack)?, number(floor)?))
}

fn main() -> ExitCode {
    let Some((file, slack, floor)) = arguments() else {
        eprintln!("usage: clq FILE.clq SLACK FLOOR");
        return ExitCode::from(2);
    };
    match run(&file, slack, floor) {
        Ok(()) => ExitCode::SUCCESS,
        Err(wrong) => {
            eprintln!("clq: {}: {wrong}", file.display());
            ExitCode::FAILURE
        }
    }
}
