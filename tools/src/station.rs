//! Batches applied by the library, and what the station tells of them, with names.
use std::collections::{BTreeMap, BTreeSet};

use bagwezin::{Monitor, Refusal};

use crate::batches::{broken, pieces, Assembled, Rest, FILE};
use crate::grammar::counted;
use crate::{refused, Network, Row};

/// A network, its monitor, and every node's rows so far.
pub struct Station<'a> {
    pub net: &'a Network,
    monitor: Monitor,
    /// The batch number.
    pub number: u32,
    pub rows: Vec<BTreeSet<Row>>,
    /// The number of the batch in which a row of a node last came or went.
    pub moved: Vec<BTreeMap<Row, u32>>,
}

/// What the last batch changed at a node.
#[derive(Clone, Debug, Default, PartialEq, Eq)]
pub struct Change {
    pub gained: Vec<Row>,
    pub lost: Vec<Row>,
}

impl<'a> Station<'a> {
    pub fn open(net: &'a Network) -> Result<Station<'a>, Refusal> {
        let count = net.nodes.len();
        Ok(Station {
            net,
            monitor: Monitor::open(&net.bytes())?,
            number: 0,
            rows: vec![BTreeSet::new(); count],
            moved: vec![BTreeMap::new(); count],
        })
    }

    /// Applies a batch; a refused one changes nothing.
    pub fn apply(&mut self, batch: &[u8]) -> Result<u32, Refusal> {
        self.number = self.monitor.apply(batch)?;
        for node in 0..self.net.nodes.len() {
            let Change { gained, lost } = self.change(node);
            for row in gained.iter().chain(&lost) {
                self.moved[node].insert(row.clone(), self.number);
            }
            self.rows[node].retain(|row| !lost.contains(row));
            self.rows[node].extend(gained);
        }
        Ok(self.number)
    }

    /// The last batch's change of a node.
    pub fn change(&self, node: usize) -> Change {
        Change {
            gained: self.monitor.gained(node).map(|r| r.to_vec()).collect(),
            lost: self.monitor.lost(node).map(|r| r.to_vec()).collect(),
        }
    }

    /// The lines of the last batch's watched changes: nodes ascending, gained first.
    pub fn told(&self) -> String {
        let mut out = String::new();
        for node in 0..self.net.nodes.len() {
            let change = self.change(node);
            let sign = self.net.sign(node).unwrap_or(0);
            let lists = [('+', change.gained, 1), ('-', change.lost, 2)];
            for (mark, rows, _) in lists.iter().filter(|l| sign & l.2 != 0) {
                for row in rows {
                    out += &format!("{mark} {}\n", self.net.row_assigned(node, row));
                }
            }
        }
        out
    }

    /// Applies a file's batches until the station has a given number, refused ones left out.
    pub fn play(&mut self, file: &[u8], after: Option<u32>) -> Result<(), String> {
        for range in pieces(file).batches {
            if after == Some(self.number) {
                break;
            }
            // a refused batch changes nothing, and the station goes on
            let _ = self.apply(&file[range]);
        }
        match after {
            Some(k) if k != self.number => {
                Err(format!("there is no batch {k}: the last one that is accepted is batch {}", self.number))
            }
            _ => Ok(()),
        }
    }
}

impl Network {
    /// A row of a node as `run` prints it and `why` takes it: `advice owner=70 block=5`.
    pub fn row_assigned(&self, node: usize, row: &[u32]) -> String {
        let n = &self.nodes[node];
        let fields = n.columns.iter().zip(row).map(|(c, v)| format!(" {c}={v}"));
        format!("{}{}", n.name, fields.collect::<String>())
    }
}

/// What the station prints for a file of batches, in words; and whether every batch is accepted and nothing left over.
pub fn run(net: &Network, path: &str, file: &Assembled) -> Result<(String, bool), Refusal> {
    let bytes = &file.bytes;
    if bytes.len() > FILE {
        let size = bytes.len();
        let text = format!("no input: {path} has {size} bytes, and the station reads at most {FILE}\n");
        return Ok((text, false));
    }
    let mut station = Station::open(net)?;
    let (mut out, mut fine) = (String::new(), true);
    let cut = pieces(bytes);
    for (k, range) in cut.batches.iter().enumerate() {
        let batch = &bytes[range.clone()];
        match station.apply(batch) {
            Ok(number) => out += &format!("batch {number}\n{}", station.told()),
            Err(refusal) => {
                fine = false;
                let line = file.ends.get(k);
                let place = line.map_or(String::new(), |l| format!(" [{path}:{l}]"));
                out += &format!("{}{place}\n", refused::batch(net, batch, refusal));
            }
        }
    }
    if let Some(text) = rest(net, bytes, &cut.rest) {
        (out, fine) = (out + &text + "\n", false);
    }
    Ok((out, fine))
}

/// The line of what stands after the last mark.
fn rest(net: &Network, file: &[u8], rest: &Rest) -> Option<String> {
    match rest {
        Rest::Nothing => None,
        Rest::Unfinished(range) => {
            let count = crate::network::offsets(&file[range.clone()]).count();
            let records = counted(count, "record", "records");
            Some(format!("unfinished: {records} after the last mark, not applied"))
        }
        Rest::Broken(range, place) => {
            Some(format!("{}; the station ends here", broken(net, &file[range.clone()], *place)))
        }
    }
}
