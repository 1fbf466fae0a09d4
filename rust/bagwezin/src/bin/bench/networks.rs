//! The networks of the workloads, as bytes.

/// A record of the house format: its length, its kind, its fields of 2 bytes.
fn record(kind: u16, fields: &[u16]) -> Vec<u8> {
    let size = 4 + 2 * fields.len() as u16;
    [size, kind].iter().chain(fields).flat_map(|x| x.to_le_bytes()).collect()
}

/// The order's network N.
pub fn n() -> Vec<u8> {
    [
        record(1, &[2]),
        record(2, &[0, 1, 5, 8, 0]),
        record(4, &[1, 1, 0]),
        record(1, &[1]),
        record(7, &[2, 3]),
        record(9, &[4, 3]),
    ]
    .concat()
}

/// The first so many nodes of an orchard of 32, with their watches. Tables: catches (block, trap, week, count), lures
/// (trap, species), blocks (block, owner), sprays (block, week) and limits (species, week, count).
pub fn orchard(nodes: usize) -> Vec<u8> {
    let all = [
        record(1, &[4]),
        record(1, &[2]),
        record(1, &[2]),
        record(1, &[2]),
        record(1, &[3]),
        record(2, &[0, 3, 5, 8, 0]),                      // 5 catches of 8 or more
        record(4, &[5, 2, 0, 2]),                         // 6 their blocks and weeks
        record(2, &[1, 1, 1, 2, 0]),                      // 7 lures for another species than 2
        record(5, &[5, 7, 1, 1, 0, 4, 0, 2, 3, 5]),       // 8 block, week, count, species
        record(5, &[8, 2, 1, 0, 0, 4, 5, 0, 1, 3]),       // 9 owner, block, week, species
        record(5, &[8, 4, 2, 3, 0, 1, 1, 4, 0, 1, 2, 6]), // 10 block, week, count, limit
        record(3, &[10, 2, 5, 3]),                        // 11 at or above the limit
        record(4, &[11, 2, 0, 1]),                        // 12 their blocks and weeks
        record(5, &[5, 5, 2, 0, 0, 2, 2, 3, 0, 1, 5]),    // 13 pairs of traps in one block and week
        record(3, &[13, 1, 4, 2]),                        // 14 the first trap above the second
        record(4, &[14, 1, 0]),                           // 15 blocks with two heavy traps
        record(8, &[6, 3]),                               // 16 heavy and sprayed
        record(7, &[6, 3]),                               // 17 heavy and not sprayed
        record(4, &[17, 1, 0]),                           // 18 their blocks
        record(6, &[15, 18]),                             // 19 either
        record(4, &[12, 1, 0]),                           // 20 blocks at their limit
        record(7, &[19, 20]),                             // 21 either, below the limit
        record(8, &[19, 20]),                             // 22 either, at the limit
        record(5, &[22, 2, 1, 0, 0, 2, 0, 2]),            // 23 and whom to tell: block, owner
        record(2, &[0, 2, 0, 21, 0]),                     // 24 catches of week 21
        record(4, &[0, 2, 0, 1]),                         // 25 blocks and traps with a catch
        record(5, &[25, 1, 1, 1, 0, 3, 0, 1, 3]),         // 26 block, trap, species
        record(5, &[26, 2, 1, 0, 0, 3, 4, 0, 2]),         // 27 owner, block, species
        record(4, &[27, 1, 0]),                           // 28 their owners
        record(4, &[3, 1, 0]),                            // 29 sprayed blocks
        record(4, &[0, 1, 0]),                            // 30 blocks with a catch
        record(8, &[29, 30]),                             // 31 both
    ];
    let watches = [[12, 3], [16, 2], [17, 3], [21, 3], [22, 1], [23, 3], [28, 3], [31, 3]];
    let watches = watches.iter().filter(|w| usize::from(w[0]) < nodes).map(|w| record(9, w));
    all.iter().take(nodes).cloned().chain(watches).flatten().collect()
}

/// A table of width 4, watched.
pub fn table() -> Vec<u8> {
    [record(1, &[4]), record(9, &[0, 3, 9])].concat()
}

/// Ten joins of two tables, three of them products.
pub fn joins() -> Vec<u8> {
    let tables = [record(1, &[4]), record(1, &[4])].concat();
    let nodes = [
        record(5, &[0, 1, 0, 2, 1, 5]),
        record(5, &[1, 0, 0, 2, 2, 6]),
        record(5, &[0, 1, 0, 1, 2]),
        record(5, &[0, 1, 1, 0, 0, 2, 1, 5]),
        record(5, &[0, 1, 1, 1, 1, 2, 3, 6]),
        record(5, &[1, 0, 1, 2, 2, 2, 1, 5]),
        record(5, &[0, 0, 1, 0, 0, 2, 1, 5]),
        record(5, &[1, 1, 2, 1, 1, 2, 2, 1, 5]),
        record(5, &[0, 1, 2, 0, 0, 1, 1, 2, 2, 6]),
        record(5, &[0, 1, 2, 0, 0, 2, 2, 2, 1, 5]),
    ];
    let watches: Vec<u8> = (2..12).flat_map(|node| record(9, &[node, 3])).collect();
    [tables, nodes.concat(), watches].concat()
}
