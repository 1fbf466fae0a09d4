//! The workloads that are made here: batches that a plain station accepts, the same for every run.
use crate::model::{Network, Station};
use crate::networks;
use crate::workload::Workload;

/// xorshift, so that every run makes the same batches.
pub struct Random(u64);

impl Random {
    fn below(&mut self, n: u32) -> u32 {
        self.0 ^= self.0 << 13;
        self.0 ^= self.0 >> 7;
        self.0 ^= self.0 << 17;
        (self.0 >> 33) as u32 % n
    }
}

/// Batches of so many events: each table is filled to its least rows, and from then on has at least these and at most
/// its most (or one more than its least, if that is more).
struct Maker<'a> {
    events: usize,
    least: usize,
    most: usize,
    tables: &'a [usize],
    row: fn(usize, &mut Random) -> Vec<u32>,
}

/// How many batches a workload has.
const BATCHES: usize = 400;

/// Events of a batch while tables are filled.
const FILLING: usize = 16;

/// The rows of each table.
type Held = Vec<Vec<Vec<u32>>>;

fn event(put: bool, table: usize, row: &[u32]) -> Vec<u8> {
    let size = 6 + 4 * row.len() as u16;
    let head = [size, if put { 32 } else { 33 }, table as u16];
    head.iter().flat_map(|x| x.to_le_bytes()).chain(row.iter().flat_map(|x| x.to_le_bytes())).collect()
}

impl Maker<'_> {
    /// One event on the rows of a table, and its bytes.
    fn event(&self, held: &mut Held, r: &mut Random) -> Vec<u8> {
        let t = r.below(self.tables.len() as u32) as usize;
        let rows = &mut held[t];
        let put = rows.len() <= self.least || (rows.len() < self.most && r.below(2) == 0);
        if !put {
            let at = r.below(rows.len() as u32) as usize;
            return event(false, self.tables[t], &rows.swap_remove(at));
        }
        let new = (self.row)(t, r);
        let bytes = event(true, self.tables[t], &new);
        if !rows.contains(&new) {
            rows.push(new);
        }
        bytes
    }

    /// The batches; those that the plain station refuses are left out.
    fn batches(&self, network: &[u8]) -> Vec<Vec<u8>> {
        let network = Network::read(network).expect("the network is accepted");
        let (mut r, mut station, mut out) = (Random(0x9e3779b97f4a7c15), Station::open(&network), Vec::new());
        let (mut held, mut filled): (Held, bool) = (vec![Vec::new(); self.tables.len()], false);
        while out.len() < BATCHES {
            filled |= held.iter().all(|rows| rows.len() >= self.least);
            let mut next = held.clone();
            let events = if filled { self.events } else { FILLING };
            let batch: Vec<u8> = (0..events).flat_map(|_| self.event(&mut next, &mut r)).collect();
            if station.apply(&batch) == (0, 0) {
                held = next;
                out.push(batch);
            }
        }
        out
    }

    fn workload(&self, name: String, network: Vec<u8>) -> Workload {
        let batches = self.batches(&network);
        Workload { name, network, batches }
    }
}

/// A row of a table of the orchard.
fn orchard_row(table: usize, r: &mut Random) -> Vec<u32> {
    match table {
        0 => vec![r.below(12), r.below(12), 20 + r.below(4), r.below(12)],
        1 => vec![r.below(40), r.below(5)],
        2 => vec![r.below(48), r.below(40)],
        3 => vec![r.below(12), 18 + r.below(8)],
        _ => vec![r.below(5), 20 + r.below(8), r.below(12)],
    }
}

/// The first so many nodes of the orchard, so many events a batch, tables between two sizes.
pub fn orchard(name: String, nodes: usize, events: usize, (least, most): (usize, usize)) -> Workload {
    let tables = &[0, 1, 2, 3, 4][..nodes.min(5)];
    Maker { events, least, most, tables, row: orchard_row }.workload(name, networks::orchard(nodes))
}

/// The order's network N, one event a batch.
fn n() -> Workload {
    let row = |table, r: &mut Random| (table..2).map(|_| r.below(16)).collect();
    Maker { events: 1, least: 4, most: 40, tables: &[0, 3], row }.workload("w1".into(), networks::n())
}

/// Ten joins, one event a batch.
fn joins() -> Workload {
    let row = |_, r: &mut Random| vec![r.below(24), r.below(8), r.below(8), r.below(8)];
    Maker { events: 1, least: 60, most: 64, tables: &[0, 1], row }.workload("w3".into(), networks::joins())
}

/// All five.
pub fn all() -> Vec<Workload> {
    let orchards = [1, 8, 64].map(|events| orchard(format!("w2-{events}"), 24, events, (32, 60)));
    [n()].into_iter().chain(orchards).chain([joins()]).collect()
}

/// The states in which folding and taking are timed: just opened, after batches of 1 and of 64 events, and with 64 pending rows at one node.
pub fn alerts() -> [Workload; 4] {
    let events = |name: &str, events| orchard(name.into(), 24, events, (32, 60));
    let opened = Workload { name: "opened".into(), network: networks::orchard(24), batches: vec![] };
    let rows = (0..64).flat_map(|x| event(true, 0, &[x / 16, x, 7, 7])).collect();
    let full = Workload { name: "64 rows".into(), network: networks::table(), batches: vec![rows] };
    [opened, events("1 event", 1), events("64 events", 64), full]
}
