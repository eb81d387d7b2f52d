//! Five vertices in a ring: tells how loose a set is, takes the core at two floors, lists the maximal 2-plexes of three or more vertices, and again with a
//! silent one, finds the largest with a given vertex, and keeps the list in a book while an edge is added. Beside a sixth vertex that nobody linked the list
//! is the same, and there is no sheet.

fn main() -> Result<(), kadvisk::Refusal> {
    let ring = [0x12, 0x05, 0x0A, 0x14, 0x09];
    println!("07 is a k-plex from k = {} on", kadvisk::looseness(&ring, 0x07)?);
    for floor in [4, 5] {
        let core = kadvisk::core(&ring, 2, floor)?;
        println!("core at floor {floor}: {:02X}, passes {}", core.mask, core.passes);
    }
    for silent in [0, 0x08] {
        println!("silent {silent:02X}:");
        for mask in kadvisk::list_all(&ring, 2, 3, silent)? {
            println!("{mask:02X}");
        }
    }
    let largest = kadvisk::largest(&ring, 2, 0x08)?;
    println!("largest 2-plex with vertex 3: {:02X}, size {}", largest.mask, largest.size);
    let (mut rows, mut slots) = (ring, [0; 8]);
    let mut book = kadvisk::Book::open(&mut rows, 2, 3, 0, &mut slots)?;
    println!("with the edge 0-2: {}", book.change(0, 2, true)?);
    for mask in book.list() {
        println!("{mask:02X}");
    }
    if let Err(refusal) = book.change(0, 2, true) {
        println!("R{:02} {:016X}: {refusal}", refusal.number(), refusal.value());
    }
    for (slack, floor, silent) in [(6, 11, 0), (2, 3, 0x20)] {
        if let Err(refusal) = kadvisk::list(&ring, slack, floor, silent, &mut []) {
            println!("R{:02} {:016X}: {refusal}", refusal.number(), refusal.value());
        }
    }
    let unlinked = [0x12, 0x05, 0x0A, 0x14, 0x09, 0];
    println!("beside an unlinked vertex: {}", kadvisk::count(&unlinked, 2, 3, 0)?);
    if let Err(refusal) = kadvisk::write_sheet(&unlinked, 2, 3, 0, &mut [0; 126]) {
        println!("R{:02} {:016X}: {refusal}", refusal.number(), refusal.value());
    }
    Ok(())
}
