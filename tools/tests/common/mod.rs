//! Random networks and batches as bytes, and the folders of the outside vectors.
#![allow(dead_code)]
use std::path::{Path, PathBuf};

use bagwezin_tools::Network;

/// The papers' network N.
pub const N: &str = "table catches block count   # node 0
select heavy = catches where count >= 8
project blocks = heavy give block
table sprays block
minus advice = blocks sprays
watch advice both
";

/// The networks of the examples: text and picture, without their endings.
pub const EXAMPLES: [&str; 6] = [
    "orchard/network",
    "orchard/no-match",
    "pictures/32-nodes/network",
    "pictures/self-join/network",
    "pictures/no-match/network",
    "pictures/priorities/network",
];

/// A file of the examples as bytes, and as text.
pub fn example_bytes(path: &str) -> Vec<u8> {
    std::fs::read(root().join("examples").join(path)).unwrap()
}

pub fn example(path: &str) -> String {
    String::from_utf8(example_bytes(path)).unwrap()
}

/// A network of the examples, from its text.
pub fn example_network(path: &str) -> Network {
    Network::assemble(&example(&format!("{path}.txt"))).unwrap()
}

/// Numbers by xorshift.
pub struct Random(u64);

impl Random {
    pub fn new(seed: u64) -> Random {
        Random(seed.wrapping_mul(0x9e37_79b9_7f4a_7c15) | 1)
    }

    /// A number below a bound.
    pub fn below(&mut self, bound: usize) -> usize {
        self.0 ^= self.0 << 13;
        self.0 ^= self.0 >> 7;
        self.0 ^= self.0 << 17;
        ((self.0 >> 11) % bound as u64) as usize
    }

    fn of<T: Copy>(&mut self, list: &[T]) -> T {
        list[self.below(list.len())]
    }

    fn field(&mut self) -> u32 {
        let any = self.below(1 << 32) as u32;
        let small = self.below(5) as u32;
        self.of(&[small, small, any, u32::MAX, 1 << 31, 65536])
    }
}

fn push(out: &mut Vec<u8>, kind: usize, fields: &[usize]) {
    let start = [4 + 2 * fields.len(), kind];
    let all = start.iter().chain(fields);
    out.extend(all.flat_map(|&x| (x as u16).to_le_bytes()));
}

/// A random network that the order accepts, with its nodes' widths and which nodes are tables.
pub struct Made {
    pub bytes: Vec<u8>,
    pub widths: Vec<usize>,
    pub tables: Vec<usize>,
}

pub fn network(r: &mut Random) -> Made {
    let mut m = Made { bytes: Vec::new(), widths: Vec::new(), tables: Vec::new() };
    let most = if r.below(8) == 0 { 32 } else { 10 };
    let count = 1 + r.below(most);
    let mut watched = vec![false; count];
    while m.widths.len() < count {
        node(r, &mut m);
        let n = m.widths.len();
        let any = r.below(n);
        let last = r.of(&[n - 1, any]);
        if r.below(3) == 0 && !watched[last] {
            watched[last] = true;
            let fields = [last, 1 + r.below(3), r.below(10)];
            let with_priority = r.below(2);
            push(&mut m.bytes, 9, &fields[..2 + with_priority]);
        }
    }
    m
}

/// The fields of two nodes and of some pairs of their columns.
fn paired(r: &mut Random, m: &Made, left: usize, right: usize, pairs: usize) -> Vec<usize> {
    let columns = (0..pairs).flat_map(|_| [r.below(m.widths[left]), r.below(m.widths[right])]);
    [left, right, pairs].into_iter().chain(columns).collect()
}

/// One more node.
fn node(r: &mut Random, m: &mut Made) {
    let n = m.widths.len();
    if n == 0 || r.below(4) == 0 {
        let width = 1 + r.below(4);
        push(&mut m.bytes, 1, &[width]);
        m.tables.push(n);
        m.widths.push(width);
        return;
    }
    let (left, mut right) = (r.below(n), r.below(n));
    let (w, kind) = (m.widths[left], r.of(&[2, 3, 4, 5, 6, 7, 8, 10]));
    let width = match kind {
        2 => {
            let (column, code, v) = (r.below(w), r.below(6), r.field() as usize);
            push(&mut m.bytes, 2, &[left, column, code, v & 0xffff, v >> 16]);
            w
        }
        3 => {
            let fields = [left, r.below(w), r.below(6), r.below(w)];
            push(&mut m.bytes, 3, &fields);
            w
        }
        4 => {
            let c = 1 + r.below(4);
            let mut fields = vec![left, c];
            fields.extend((0..c).map(|_| r.below(w)));
            push(&mut m.bytes, 4, &fields);
            c
        }
        5 => {
            let (p, c, v) = (r.below(3), 1 + r.below(4), m.widths[right]);
            let mut fields = paired(r, m, left, right, p);
            fields.push(c);
            fields.extend((0..c).map(|_| r.below(w + v)));
            push(&mut m.bytes, 5, &fields);
            c
        }
        10 => {
            let p = 1 + r.below(2);
            let fields = paired(r, m, left, right, p);
            push(&mut m.bytes, 10, &fields);
            w
        }
        set => {
            if m.widths[right] != w {
                right = left;
            }
            push(&mut m.bytes, set, &[left, right]);
            w
        }
    };
    m.widths.push(width);
}

/// A random file of legal batches: empty ones and an unfinished rest too.
pub fn batches(r: &mut Random, m: &Made) -> Vec<u8> {
    let mut out = Vec::new();
    for _ in 0..r.below(4) {
        let most = r.of(&[0, 3, 12, 64]);
        events(r, m, most, &mut out);
        push(&mut out, 34, &[]);
    }
    if r.below(3) == 0 {
        events(r, m, 5, &mut out);
    }
    out
}

fn events(r: &mut Random, m: &Made, most: usize, out: &mut Vec<u8>) {
    for _ in 0..r.below(most + 1) {
        let table = r.of(&m.tables);
        let mut fields = vec![table];
        for _ in 0..m.widths[table] {
            let v = r.field() as usize;
            fields.extend([v & 0xffff, v >> 16]);
        }
        let kind = 32 + r.below(2);
        push(out, kind, &fields);
    }
}

pub fn root() -> PathBuf {
    Path::new(env!("CARGO_MANIFEST_DIR")).join("..")
}

/// The folders of the outside vectors that have both files: name, network, batches, what the station prints.
pub fn vectors() -> Vec<(String, Vec<u8>, Vec<u8>, String)> {
    let base = root().join("tests/data/vectors");
    let mut out = Vec::new();
    for folder in [base.clone(), base.join("special")] {
        for entry in std::fs::read_dir(folder).unwrap() {
            let path = entry.unwrap().path();
            let read = |name: &str| std::fs::read(path.join(name)).ok();
            if let (Some(n), Some(b), Some(s)) = (read("network.bin"), read("batch.bin"), read("stdout")) {
                let name = path.file_name().unwrap().to_string_lossy().into_owned();
                out.push((name, n, b, String::from_utf8(s).unwrap()));
            }
        }
    }
    out.sort();
    assert!(out.len() > 100, "the outside vectors are missing");
    out
}
