//! The plain station, written from the order's sentences: sets of rows, everything evaluated afresh.
use std::collections::BTreeSet;

use bagwezin::{AREA, FIELDS, HEAD, PENDING, PENDING_COUNTS};

pub type Row = Vec<u32>;
pub type Relation = BTreeSet<Row>;

/// A refusal's number and place.
pub type Verdict = (u32, u32);

/// One node with its own data.
#[derive(Clone, Debug)]
pub enum Node {
    Table(usize),
    SelectConstant { input: usize, column: usize, code: usize, constant: u32 },
    SelectColumn { input: usize, column: usize, code: usize, other: usize },
    Project { input: usize, columns: Vec<usize> },
    Join { left: usize, right: usize, pairs: Vec<(usize, usize)>, columns: Vec<usize> },
    Set { kind: usize, left: usize, right: usize },
    NoMatch { left: usize, right: usize, pairs: Vec<(usize, usize)> },
}

/// A network: nodes with widths and levels, and each node's watch sign (0: none) and priority.
#[derive(Clone, Debug, Default)]
pub struct Network {
    pub nodes: Vec<Node>,
    pub widths: Vec<usize>,
    pub levels: Vec<usize>,
    pub signs: Vec<usize>,
    pub priorities: Vec<usize>,
}

fn u16_at(bytes: &[u8], at: usize) -> usize {
    bytes[at] as usize + 256 * bytes[at + 1] as usize
}

fn u32_at(bytes: &[u8], at: usize) -> u32 {
    u32::from_le_bytes([bytes[at], bytes[at + 1], bytes[at + 2], bytes[at + 3]])
}

/// Rules 3 and 10: whether the record at an offset is broken.
pub fn is_broken(bytes: &[u8], at: usize) -> bool {
    let left = bytes.len() - at;
    left < 4 || u16_at(bytes, at) < 4 || u16_at(bytes, at) > left
}

impl Node {
    pub fn inputs(&self) -> Vec<usize> {
        match self {
            Node::Table(_) => vec![],
            Node::SelectConstant { input, .. } | Node::SelectColumn { input, .. } | Node::Project { input, .. } => {
                vec![*input]
            }
            Node::Join { left, right, .. } | Node::Set { left, right, .. } | Node::NoMatch { left, right, .. } => {
                vec![*left, *right]
            }
        }
    }

    pub fn kind(&self) -> u32 {
        match self {
            Node::Table(_) => 1,
            Node::SelectConstant { .. } => 2,
            Node::SelectColumn { .. } => 3,
            Node::Project { .. } => 4,
            Node::Join { .. } => 5,
            Node::Set { kind, .. } => *kind as u32,
            Node::NoMatch { .. } => 10,
        }
    }
}

fn holds(code: usize, left: u32, right: u32) -> bool {
    match code {
        0 => left == right,
        1 => left != right,
        2 => left < right,
        3 => left <= right,
        4 => left > right,
        _ => left >= right,
    }
}

/// Whether a left and a right row agree on all pairs of columns.
fn agree(pairs: &[(usize, usize)], left: &Row, right: &Row) -> bool {
    pairs.iter().all(|&(x, y)| left[x] == right[y])
}

impl Network {
    /// Refusals 2 to 7, or the network.
    pub fn read(bytes: &[u8]) -> Result<Network, Verdict> {
        if bytes.is_empty() {
            return Err((2, 0));
        }
        let mut net = Network::default();
        let mut at = 0;
        while at < bytes.len() {
            let refuse = |number| Err((number, at as u32));
            if is_broken(bytes, at) {
                return refuse(3);
            }
            let size = u16_at(bytes, at);
            let kind = u16_at(bytes, at + 2);
            if !(1..=10).contains(&kind) {
                return refuse(4);
            }
            if kind != 9 && net.nodes.len() == 32 {
                return refuse(5);
            }
            let field = |k: usize| u16_at(bytes, at + 4 + 2 * k);
            let shape = match kind {
                1 => size == 6,
                2 => size == 14,
                3 => size == 12,
                4 => size >= 8 && (1..=4).contains(&field(1)) && size == 8 + 2 * field(1),
                5 => {
                    size >= 10 && field(2) <= 2 && size >= 12 + 4 * field(2) && {
                        let c = field(3 + 2 * field(2));
                        (1..=4).contains(&c) && size == 12 + 4 * field(2) + 2 * c
                    }
                }
                9 => size == 8 || size == 10,
                10 => size >= 10 && (1..=2).contains(&field(2)) && size == 10 + 4 * field(2),
                _ => size == 8,
            };
            if !shape {
                return refuse(6);
            }
            let n = net.nodes.len();
            let width = |i: usize| net.widths[i];
            let pairs =
                |p: usize| -> Vec<(usize, usize)> { (0..p).map(|k| (field(3 + 2 * k), field(4 + 2 * k))).collect() };
            if kind == 9 {
                let priority = if size == 10 { field(2) } else { 0 };
                if field(0) >= n || !(1..=3).contains(&field(1)) || net.signs[field(0)] != 0 || priority > 9 {
                    return refuse(7);
                }
                net.signs[field(0)] = field(1);
                net.priorities[field(0)] = priority;
                at += size;
                continue;
            }
            let (node, wide) = match kind {
                1 => {
                    if !(1..=4).contains(&field(0)) {
                        return refuse(7);
                    }
                    (Node::Table(field(0)), field(0))
                }
                2 | 3 => {
                    let (input, column, code) = (field(0), field(1), field(2));
                    if input >= n || column >= width(input) || code > 5 || (kind == 3 && field(3) >= width(input)) {
                        return refuse(7);
                    }
                    let w = width(input);
                    if kind == 2 {
                        (Node::SelectConstant { input, column, code, constant: u32_at(bytes, at + 10) }, w)
                    } else {
                        (Node::SelectColumn { input, column, code, other: field(3) }, w)
                    }
                }
                4 => {
                    let columns: Vec<usize> = (0..field(1)).map(|k| field(2 + k)).collect();
                    if field(0) >= n || columns.iter().any(|&c| c >= width(field(0))) {
                        return refuse(7);
                    }
                    let w = columns.len();
                    (Node::Project { input: field(0), columns }, w)
                }
                5 => {
                    let (left, right, p) = (field(0), field(1), field(2));
                    let pairs = pairs(p);
                    let columns: Vec<usize> = (0..field(3 + 2 * p)).map(|k| field(4 + 2 * p + k)).collect();
                    if left >= n
                        || right >= n
                        || pairs.iter().any(|&(l, r)| l >= width(left) || r >= width(right))
                        || columns.iter().any(|&c| c >= width(left) + width(right))
                    {
                        return refuse(7);
                    }
                    let w = columns.len();
                    (Node::Join { left, right, pairs, columns }, w)
                }
                10 => {
                    let (left, right, pairs) = (field(0), field(1), pairs(field(2)));
                    if left >= n || right >= n || pairs.iter().any(|&(l, r)| l >= width(left) || r >= width(right)) {
                        return refuse(7);
                    }
                    let w = width(left);
                    (Node::NoMatch { left, right, pairs }, w)
                }
                _ => {
                    let (left, right) = (field(0), field(1));
                    if left >= n || right >= n || width(left) != width(right) {
                        return refuse(7);
                    }
                    let w = width(left);
                    (Node::Set { kind, left, right }, w)
                }
            };
            let level = node.inputs().iter().map(|&i| net.levels[i] + 1).max().unwrap_or(0);
            net.nodes.push(node);
            net.widths.push(wide);
            net.levels.push(level);
            net.signs.push(0);
            net.priorities.push(0);
            at += size;
        }
        Ok(net)
    }

    /// Whether a node is watched with sign 1 or 3.
    pub fn alerts(&self, node: usize) -> bool {
        matches!(self.signs.get(node), Some(1 | 3))
    }

    /// The fresh evaluation of every node; tables stand at their node numbers.
    pub fn evaluate(&self, tables: &[Relation]) -> Vec<Relation> {
        let mut rels: Vec<Relation> = Vec::new();
        for (i, node) in self.nodes.iter().enumerate() {
            let rows = match node {
                Node::Table(_) => tables[i].clone(),
                Node::SelectConstant { input, column, code, constant } => {
                    rels[*input].iter().filter(|r| holds(*code, r[*column], *constant)).cloned().collect()
                }
                Node::SelectColumn { input, column, code, other } => {
                    rels[*input].iter().filter(|r| holds(*code, r[*column], r[*other])).cloned().collect()
                }
                Node::Project { input, columns } => {
                    rels[*input].iter().map(|r| columns.iter().map(|&c| r[c]).collect()).collect()
                }
                Node::Join { left, right, pairs, columns } => {
                    let mut out = Relation::new();
                    for l in &rels[*left] {
                        for r in rels[*right].iter().filter(|r| agree(pairs, l, r)) {
                            out.insert(
                                columns.iter().map(|&c| if c < l.len() { l[c] } else { r[c - l.len()] }).collect(),
                            );
                        }
                    }
                    out
                }
                Node::Set { kind: 6, left, right } => &rels[*left] | &rels[*right],
                Node::Set { kind: 7, left, right } => &rels[*left] - &rels[*right],
                Node::Set { left, right, .. } => &rels[*left] & &rels[*right],
                Node::NoMatch { left, right, pairs } => {
                    rels[*left].iter().filter(|l| !rels[*right].iter().any(|r| agree(pairs, l, r))).cloned().collect()
                }
            };
            rels.push(rows);
        }
        rels
    }
}

/// The four areas as words.
#[derive(Clone, PartialEq, Eq)]
pub struct Areas {
    pub rows: Vec<u32>,
    pub gained: Vec<u32>,
    pub lost: Vec<u32>,
    pub head: Vec<u32>,
}

/// Puts rows in a node's place, and their count where it stands.
pub fn put(area: &mut [u32], count: &mut u32, node: usize, rows: &Relation) {
    *count = rows.len() as u32;
    for (j, row) in rows.iter().enumerate() {
        area[256 * node + 4 * j..][..row.len()].copy_from_slice(row);
    }
}

impl Areas {
    pub fn zero() -> Areas {
        Areas { rows: vec![0; AREA], gained: vec![0; AREA], lost: vec![0; AREA], head: vec![0; HEAD] }
    }

    fn held(area: &[u32], head: &[u32], counts: usize, i: usize, width: usize) -> Vec<Row> {
        (0..head[counts + i] as usize).map(|j| area[256 * i + 4 * j..256 * i + 4 * j + width].to_vec()).collect()
    }

    /// Refusals 1 to 8, or the network.
    pub fn form(&self, network: &[u8]) -> Result<Network, Verdict> {
        let sizes = [(&self.rows, AREA), (&self.gained, AREA), (&self.lost, AREA), (&self.head, HEAD)];
        if sizes.iter().any(|(area, size)| area.len() < *size) {
            return Err((1, 0));
        }
        let net = Network::read(network)?;
        if self.good_form(&net) {
            Ok(net)
        } else {
            Err((8, 0))
        }
    }

    /// "Good form".
    pub fn good_form(&self, net: &Network) -> bool {
        let (n, head) = (net.nodes.len(), &self.head);
        for (area, counts) in [(&self.rows, 1), (&self.gained, 65), (&self.lost, 97)] {
            let mut used = vec![false; AREA];
            for i in 0..32 {
                let count = head[counts + i] as usize;
                if count > 64 || (i >= n && count != 0) {
                    return false;
                }
                if i < n {
                    let rows = Areas::held(area, head, counts, i, net.widths[i]);
                    if rows.windows(2).any(|p| p[0] >= p[1]) {
                        return false;
                    }
                    for j in 0..count {
                        used[256 * i + 4 * j..256 * i + 4 * j + net.widths[i]].fill(true);
                    }
                }
            }
            if (0..AREA).any(|k| !used[k] && area[k] != 0) {
                return false;
            }
        }
        (0..32).all(|i| head[33 + i] <= if i < n { head[0] } else { 0 })
            && head[129] as usize <= n
            && (0..32).all(|k| if k < head[129] as usize { (head[130 + k] as usize) < n } else { head[130 + k] == 0 })
    }

    /// "Coherent": good form, and each derived node's rows equal its fresh evaluation.
    pub fn coherent(&self, net: &Network) -> bool {
        if !self.good_form(net) {
            return false;
        }
        let rels: Vec<Relation> = (0..net.nodes.len())
            .map(|i| Areas::held(&self.rows, &self.head, 1, i, net.widths[i]).into_iter().collect())
            .collect();
        net.evaluate(&rels) == rels
    }

    /// The report of a node: refusals 15 and 16, or its bytes.
    pub fn report(&self, net: &Network, node: usize, room: usize) -> Result<Vec<u8>, Verdict> {
        if node >= net.nodes.len() || net.signs[node] == 0 {
            return Err((15, 0));
        }
        let mut out = Vec::new();
        for (area, counts, kind, signs) in [(&self.gained, 65, 64u16, [1, 3]), (&self.lost, 97, 65, [2, 3])] {
            if signs.contains(&net.signs[node]) {
                for row in Areas::held(area, &self.head, counts, node, net.widths[node]) {
                    out.extend((6 + 4 * row.len() as u16).to_le_bytes());
                    out.extend(kind.to_le_bytes());
                    out.extend((node as u16).to_le_bytes());
                    row.iter().for_each(|x| out.extend(x.to_le_bytes()));
                }
            }
        }
        if out.len() > room {
            return Err((16, 0));
        }
        Ok(out)
    }
}

/// The machine that demand 3 compares with.
#[derive(Clone)]
pub struct Station {
    pub net: Network,
    pub tables: Vec<Relation>,
    pub number: u32,
    pub stamps: Vec<u32>,
    pub changes: Vec<(Relation, Relation)>,
    pub worked: Vec<usize>,
}

impl Station {
    pub fn open(net: &Network) -> Station {
        let n = net.nodes.len();
        Station {
            net: net.clone(),
            tables: vec![Relation::new(); n],
            number: 0,
            stamps: vec![0; n],
            changes: vec![Default::default(); n],
            worked: vec![],
        }
    }

    /// The state that areas of good form hold.
    pub fn from(net: &Network, a: &Areas) -> Station {
        let n = net.nodes.len();
        let set = |area: &[u32], counts: usize, i: usize| -> Relation {
            Areas::held(area, &a.head, counts, i, net.widths[i]).into_iter().collect()
        };
        Station {
            net: net.clone(),
            tables: (0..n)
                .map(|i| if net.nodes[i].inputs().is_empty() { set(&a.rows, 1, i) } else { Relation::new() })
                .collect(),
            number: a.head[0],
            stamps: a.head[33..33 + n].to_vec(),
            changes: (0..n).map(|i| (set(&a.gained, 65, i), set(&a.lost, 97, i))).collect(),
            worked: a.head[130..130 + a.head[129] as usize].iter().map(|&x| x as usize).collect(),
        }
    }

    /// Refusals 10 to 13, or the tables after the events.
    fn events(&self, batch: &[u8]) -> Result<Vec<Relation>, Verdict> {
        let (mut tables, mut at, mut count) = (self.tables.clone(), 0, 0);
        while at < batch.len() {
            let refuse = |number| Err((number, at as u32));
            if is_broken(batch, at) {
                return refuse(10);
            }
            let (size, kind) = (u16_at(batch, at), u16_at(batch, at + 2));
            if kind != 32 && kind != 33 {
                return refuse(11);
            }
            if count == 64 {
                return refuse(12);
            }
            let node = if size >= 6 { u16_at(batch, at + 4) } else { usize::MAX };
            match self.net.nodes.get(node) {
                Some(Node::Table(w)) if size == 6 + 4 * w => {
                    let row: Row = (0..*w).map(|k| u32_at(batch, at + 6 + 4 * k)).collect();
                    if kind == 32 {
                        tables[node].insert(row);
                    } else {
                        tables[node].remove(&row);
                    }
                }
                _ => return refuse(13),
            }
            count += 1;
            at += size;
        }
        Ok(tables)
    }

    /// One batch: 9 to 14, or the next state.
    pub fn apply(&mut self, batch: &[u8]) -> Verdict {
        if self.number == u32::MAX {
            return (9, 0);
        }
        let copy = match self.events(batch) {
            Ok(tables) => tables,
            Err(refusal) => return refusal,
        };
        let (old, new) = (self.net.evaluate(&self.tables), self.net.evaluate(&copy));
        if let Some(i) = new.iter().position(|r| r.len() > 64) {
            return (14, i as u32);
        }
        self.number += 1;
        self.changes = old.iter().zip(&new).map(|(a, b)| (b - a, a - b)).collect();
        let changed: Vec<bool> = self.changes.iter().map(|(g, l)| !g.is_empty() || !l.is_empty()).collect();
        for (i, c) in changed.iter().enumerate() {
            if *c {
                self.stamps[i] = self.number;
            }
        }
        let mut worked: Vec<usize> =
            (0..self.net.nodes.len()).filter(|&i| self.net.nodes[i].inputs().iter().any(|&j| changed[j])).collect();
        worked.sort_by_key(|&i| (self.net.levels[i], i));
        self.worked = worked;
        self.tables = copy;
        (0, 0)
    }

    /// The areas that hold this state.
    pub fn areas(&self) -> Areas {
        let mut a = Areas::zero();
        let fresh = self.net.evaluate(&self.tables);
        a.head[0] = self.number;
        for i in 0..self.net.nodes.len() {
            a.head[33 + i] = self.stamps[i];
            for (area, counts, rel) in [
                (&mut a.rows, 1, &fresh[i]),
                (&mut a.gained, 65, &self.changes[i].0),
                (&mut a.lost, 97, &self.changes[i].1),
            ] {
                put(area, &mut a.head[counts + i], i, rel);
            }
        }
        a.head[129] = self.worked.len() as u32;
        for (k, &i) in self.worked.iter().enumerate() {
            a.head[130 + k] = i as u32;
        }
        a
    }
}

/// Each node's pending rows.
#[derive(Clone, Debug, PartialEq, Eq)]
pub struct Pending {
    pub rows: Vec<Relation>,
}

impl Pending {
    /// "The caller sets it to 0 at opening".
    pub fn open(net: &Network) -> Pending {
        Pending { rows: vec![Relation::new(); net.nodes.len()] }
    }

    /// The words that hold these rows.
    pub fn words(&self) -> Vec<u32> {
        let mut words = vec![0; PENDING];
        let (area, counts) = words.split_at_mut(PENDING_COUNTS);
        for (i, rows) in self.rows.iter().enumerate() {
            put(area, &mut counts[i], i, rows);
        }
        words
    }

    /// The rows that words hold; none under rule 17. Words of good form are those that hold the rows read from them: a set ascends, its words have
    /// zeros at the end, and only nodes watched with sign 1 or 3 are read.
    pub fn read(net: &Network, words: &[u32]) -> Option<Pending> {
        let named = words.get(..PENDING)?;
        let mut pending = Pending::open(net);
        for (i, rows) in pending.rows.iter_mut().enumerate().filter(|(i, _)| net.alerts(*i)) {
            let count = named[PENDING_COUNTS + i] as usize;
            if count > 64 {
                return None;
            }
            rows.extend(Areas::held(named, named, PENDING_COUNTS, i, net.widths[i]));
        }
        (pending.words() == named).then_some(pending)
    }

    /// "The lost rows go out, then the gained ones come in", by each node's gained and lost rows; none if that is above 64 rows at a node.
    pub fn fold(&self, net: &Network, changes: &[(Relation, Relation)]) -> Option<Pending> {
        let folded = |i: usize| match &changes[i] {
            (gained, lost) if net.alerts(i) => &(&self.rows[i] - lost) | gained,
            _ => self.rows[i].clone(),
        };
        let rows: Vec<Relation> = (0..net.nodes.len()).map(folded).collect();
        rows.iter().all(|rows| rows.len() <= 64).then_some(Pending { rows })
    }

    /// "The highest priority number with something pending, there the lowest node", and its lowest row, which is removed.
    pub fn take(&mut self, net: &Network) -> Option<(usize, Row)> {
        let by_priority = (0..10).rev().flat_map(|p| (0..net.nodes.len()).filter(move |&i| net.priorities[i] == p));
        for node in by_priority {
            if let Some(row) = self.rows[node].pop_first() {
                return Some((node, row));
            }
        }
        None
    }
}

/// The folding call on any bytes and words.
pub fn fold(network: &[u8], a: &Areas, pending: &mut [u32]) -> Result<u32, Verdict> {
    let net = a.form(network)?;
    let changes = Station::from(&net, a).changes;
    let folded = Pending::read(&net, pending).and_then(|p| p.fold(&net, &changes)).ok_or((17, 0))?;
    pending[..PENDING].copy_from_slice(&folded.words());
    Ok(0)
}

/// The taking call on any bytes and words.
pub fn take(network: &[u8], a: &Areas, pending: &mut [u32], answer: &mut [u32]) -> Result<u32, Verdict> {
    if answer.len() < FIELDS {
        return Err((1, 0));
    }
    let net = a.form(network)?;
    let mut rows = Pending::read(&net, pending).ok_or((17, 0))?;
    let (node, row) = rows.take(&net).ok_or((18, 0))?;
    pending[..PENDING].copy_from_slice(&rows.words());
    answer[..FIELDS].fill(0);
    answer[..row.len()].copy_from_slice(&row);
    Ok(node as u32)
}

/// What happened to the pending rows: an accepted batch gained and lost rows at each node, or a row was taken.
#[derive(Clone, Debug)]
pub enum Happening {
    Batch(Vec<(Relation, Relation)>),
    Took(usize, Row),
}

/// All that happened since opening, and the claim about it.
#[derive(Clone, Debug, Default)]
pub struct History {
    pub happened: Vec<Happening>,
}

impl History {
    fn gained(&self, at: usize, node: usize, row: &Row) -> bool {
        matches!(&self.happened[at], Happening::Batch(changes) if changes[node].0.contains(row))
    }

    fn lost_or_taken(&self, at: usize, node: usize, row: &Row) -> bool {
        match &self.happened[at] {
            Happening::Batch(changes) => changes[node].1.contains(row),
            Happening::Took(from, taken) => *from == node && taken == row,
        }
    }

    /// "A row of such a node is pending exactly if it was gained since opening and neither lost nor taken since".
    pub fn is_pending(&self, net: &Network, node: usize, row: &Row) -> bool {
        let end = self.happened.len();
        let kept = |at: usize| (at + 1..end).all(|later| !self.lost_or_taken(later, node, row));
        net.alerts(node) && (0..end).any(|at| self.gained(at, node, row) && kept(at))
    }

    /// Every row that a node ever gained.
    pub fn ever_gained(&self, node: usize) -> Relation {
        let gained = |happening: &Happening| match happening {
            Happening::Batch(changes) => changes[node].0.clone(),
            Happening::Took(..) => Relation::new(),
        };
        self.happened.iter().flat_map(gained).collect()
    }

    /// Each node's pending rows by the claim.
    pub fn pending(&self, net: &Network) -> Pending {
        let rows =
            |node: usize| self.ever_gained(node).into_iter().filter(|row| self.is_pending(net, node, row)).collect();
        Pending { rows: (0..net.nodes.len()).map(rows).collect() }
    }
}
