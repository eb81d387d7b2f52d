//! The program `kplexes`: sheets, damaged sheets and random bytes on its standard input, against what the rules of the sheet and of the list say.
use outside::calls::{list, refused, success};
use outside::cases::{isolate, many, mostly_linked, silent};
use outside::instances::{self, Rng};
use outside::{book, text};
use std::io::Write;
use std::path::PathBuf;
use std::process::{Command, Stdio};

/// The built program: KADVISK_PROGRAM, or where scripts/program writes it.
fn program() -> PathBuf {
    let built = PathBuf::from(env!("CARGO_MANIFEST_DIR")).join("../../target/bin/kplexes");
    let path = std::env::var_os("KADVISK_PROGRAM").map(PathBuf::from).unwrap_or(built);
    assert!(path.exists(), "no program at {}: build it by `scripts/program`, or name it in KADVISK_PROGRAM", path.display());
    path
}

fn run(program: &PathBuf, input: &[u8]) -> Vec<u8> {
    let mut child = Command::new(program).stdin(Stdio::piped()).stdout(Stdio::piped()).spawn().expect("the program starts");
    // it may stop reading before the input ends
    let _ = child.stdin.take().unwrap().write_all(input);
    let output = child.wait_with_output().unwrap();
    assert!(output.status.success(), "{:?}", output.status);
    output.stdout
}

/// What the program owes: at most 1,113 bytes are looked at, and there are 4,096 slots.
fn owed(input: &[u8]) -> Vec<u8> {
    let refusal = |number: usize, value: usize| format!("R{number:02} {value:016X}\n").into_bytes();
    let sheet = match text::read(&input[..input.len().min(1113)], 64) {
        Ok(sheet) => sheet,
        Err((number, value)) => return refusal(number, value),
    };
    let list = book::list(&sheet.rows, sheet.slack, sheet.floor, sheet.silent);
    if list.len() > 4096 {
        return refusal(6, list.len());
    }
    let lines: String = list.iter().map(|mask| format!("{mask:016X}\n")).collect();
    format!("{:016X}\n{lines}", list.len()).into_bytes()
}

fn hold(program: &PathBuf, input: &[u8]) {
    let (got, want) = (run(program, input), owed(input));
    assert_eq!(String::from_utf8_lossy(&got), String::from_utf8_lossy(&want), "{:?}", String::from_utf8_lossy(input));
}

#[test]
fn the_ring() {
    let program = program();
    let ring = text::write(&[0x12, 0x05, 0x0A, 0x14, 0x09], 2, 3, 0);
    assert_eq!(run(&program, &ring), b"0000000000000005\n0000000000000007\n000000000000000E\n0000000000000013\n0000000000000019\n000000000000001C\n");
    assert_eq!(run(&program, b""), b"R08 0000000000000001\n");
    hold(&program, &ring);
    // vertex 3 is silent, a sixth would be, and the sheet has no line 2
    let ring = |silent: u64| text::write(&[0x12, 0x05, 0x0A, 0x14, 0x09], 2, 3, silent);
    assert_eq!(run(&program, &ring(0x08)), b"0000000000000002\n0000000000000007\n0000000000000013\n");
    assert_eq!(run(&program, &ring(0x20)), b"R07 0000000000000000\n");
    assert_eq!(run(&program, &[&ring(0)[..7], &ring(0)[24..]].concat()), b"R08 0000000000000007\n");
}

#[test]
fn sheets() {
    let program = program();
    let (mut rng, mut linked, mut others) = (Rng(40), 0, 0);
    for _ in 0..many(400) {
        let (rows, k) = (mostly_linked(&mut rng, 24), rng.between(1, 3));
        let silent = silent(&mut rng, rows.len());
        hold(&program, &text::write(&rows, k, 2 * k - 1 + rng.below(8), silent));
        *if rows.contains(&0) { &mut others } else { &mut linked } += 1;
    }
    println!("{linked} sheets in which each vertex has a neighbour, {others} others");
    assert!(linked > 200 && others > 20);
    hold(&program, &text::write(&instances::complete(64), 1, 64, 0));
    hold(&program, &text::write(&instances::complete(64), 5, 9, 0));
    hold(&program, &text::write(&instances::random(64, 0.3, 1), 2, 3, 0));
    hold(&program, &text::write(&instances::random(64, 0.2, 1), 1, 2, 0));
    hold(&program, &text::write(&instances::complete(64), 5, 33, u64::MAX >> 31));
    hold(&program, &text::write(&instances::complete(64), 5, 32, u64::MAX >> 32));
    let pairs = (0..64).map(|v| 1u64 << (v ^ 1)).collect::<Vec<u64>>();
    hold(&program, &text::write(&pairs, 2, 3, 0));
}

#[test]
fn just_as_many_masks_as_there_are_slots_and_one_more() {
    let (program, parts) = (program(), instances::multipartite(24, 2));
    hold(&program, &text::write(&parts, 1, 12, 0));
    // a clique more: two vertices that are adjacent to each other alone
    let joined = [&parts[..], &[1 << 25, 1 << 24]].concat();
    assert_eq!(run(&program, &text::write(&joined, 1, 1, 0)), b"R06 0000000000001001\n");
    hold(&program, &text::write(&joined, 1, 1, 0));
    // one of them is silent, so that both are below the floor: again as many as there are slots
    let sheet = text::write(&joined, 1, 2, 1 << 24);
    hold(&program, &sheet);
    assert!(run(&program, &sheet).starts_with(b"0000000000001000\n"));
    // a clique more: a vertex that nobody linked. The program declines the sheet, and the call takes the rows
    let alone = [&parts[..], &[0]].concat();
    for silent in [0, 1 << 24] {
        assert_eq!(run(&program, &text::write(&alone, 1, 1, silent)), b"R14 0000000000000018\n");
    }
    let mut slots = [7; 4096];
    assert_eq!(list(&alone, 1, 1, 0, &mut slots), refused((6, 4097)));
    assert_eq!(list(&alone, 1, 1, 1 << 24, &mut slots), success(4096, 0));
    assert_eq!(slots[..], book::list(&parts, 1, 1, 0));
}

#[test]
fn vertices_that_nobody_linked() {
    let program = program();
    let declined = |rows: &[u64], lowest: usize| {
        assert_eq!(String::from_utf8_lossy(&run(&program, &text::write(rows, 1, 1, 0))), format!("R14 {lowest:016X}\n"), "{rows:X?}");
    };
    // without an edge the sheet is declined at row 0, and the rows are a list of single vertices
    for n in 1..=64 {
        declined(&vec![0; n], 0);
        let mut slots = vec![7; n];
        assert_eq!(list(&vec![0; n], 1, 1, 0, &mut slots), success(n, 0));
        assert_eq!(slots, (0..n).map(|v| 1 << v).collect::<Vec<u64>>());
    }
    // each vertex of a ring, by itself and beside the last; between 1 and the last vertex 0 has no neighbour either
    for n in [4, 5, 17, 64] {
        for a in 0..n {
            let mut rows = instances::ring(n);
            isolate(&mut rows, 1 << a);
            declined(&rows, a);
            isolate(&mut rows, 1 << (n - 1));
            declined(&rows, if a == 1 { 0 } else { a });
        }
    }
}

#[test]
fn every_slack_of_a_sheet() {
    let (program, parts) = (program(), instances::multipartite(11, 6));
    for k in 0..=255usize {
        let sheet = text::write(&parts, k, (2 * k).saturating_sub(1).clamp(1, 64), 0);
        hold(&program, &sheet);
        let refused = !(1..=5).contains(&k);
        assert_eq!(run(&program, &sheet) == b"R02 0000000000000000\n", refused, "k={k}");
    }
}

#[test]
fn damaged_sheets() {
    let program = program();
    let mut rng = Rng(41);
    for case in 0..many(1000) {
        let rows = mostly_linked(&mut rng, 10);
        let mut sheet = text::write(&rows, 2, 3, silent(&mut rng, rows.len()));
        // line 2 in every fourth sheet
        let at = if case % 4 == 0 { rng.between(7, 23) } else { rng.below(sheet.len()) };
        match rng.below(4) {
            0 => sheet.truncate(at),
            1 => sheet[at] = rng.word() as u8,
            2 => sheet.insert(at, b"0AF\n \r"[rng.below(6)]),
            _ => sheet.extend(std::iter::repeat_n(b'\n', 1 + rng.below(1200))),
        }
        hold(&program, &sheet);
    }
    let longest = text::write(&instances::complete(64), 1, 64, 0);
    hold(&program, &[&longest[..], b"\n"].concat());
    hold(&program, &[&longest[..], &[b'0'; 70_000][..]].concat());
}

#[test]
fn random_bytes() {
    let program = program();
    let mut rng = Rng(42);
    for case in 0..many(1000) {
        let length = [rng.below(20), rng.below(1200), rng.below(5000)][case % 3];
        let bytes: Vec<u8> = match rng.below(3) {
            0 => (0..length).map(|_| rng.word() as u8).collect(),
            1 => (0..length).map(|_| b"0123456789ABCDEF\n"[rng.below(17)]).collect(),
            _ => {
                // lines of zeros, of which every other time there are as many as line 1 says
                let n = rng.below(66);
                let length = if rng.chance(0.5) { 17 * (n + 1) } else { length };
                format!("{n:02X}0101\n").into_bytes().into_iter().chain((0..length).map(|i| if i % 17 == 16 { 10 } else { 48 })).collect()
            }
        };
        hold(&program, &bytes);
    }
}
