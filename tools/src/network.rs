//! Networks, to and from bytes.
use bagwezin::{outcome, raw, Refusal, ANSWER, PRIORITY};

use crate::grammar::{counted, COMPARISONS, SIGNS};
use crate::refused;

pub type Row = Vec<u32>;

/// The most nodes of a network, and fields of a row.
pub const NODES: usize = 32;
pub const FIELDS: usize = 4;

/// What a select compares its column with.
#[derive(Clone, Copy, Debug, PartialEq, Eq)]
pub enum Operand {
    Constant(u32),
    Column(usize),
}

/// The kinds 6 to 8.
#[derive(Clone, Copy, Debug, PartialEq, Eq)]
pub enum Set {
    Union,
    Minus,
    Intersect,
}

pub const SETS: [(Set, &str); 3] = [(Set::Union, "union"), (Set::Minus, "minus"), (Set::Intersect, "intersect")];

impl Set {
    pub fn word(self) -> &'static str {
        SETS[self as usize].1
    }
}

/// What a node is made from. A join's columns count over the left row, then the right one.
#[derive(Clone, Debug, PartialEq, Eq)]
pub enum Op {
    Table(usize),
    Select { input: usize, column: usize, comparison: usize, operand: Operand },
    Project { input: usize, columns: Vec<usize> },
    Join { left: usize, right: usize, pairs: Vec<(usize, usize)>, columns: Vec<usize> },
    Set { set: Set, left: usize, right: usize },
    NoMatch { left: usize, right: usize, pairs: Vec<(usize, usize)> },
}

impl Op {
    pub fn inputs(&self) -> Vec<usize> {
        match *self {
            Op::Table(_) => vec![],
            Op::Select { input, .. } | Op::Project { input, .. } => vec![input],
            Op::Join { left, right, .. } | Op::Set { left, right, .. } | Op::NoMatch { left, right, .. } => {
                vec![left, right]
            }
        }
    }

    /// The record's kind and its fields of 2 bytes.
    fn fields(&self) -> (usize, Vec<usize>) {
        match self {
            Op::Table(width) => (1, vec![*width]),
            Op::Select { input, column, comparison, operand } => {
                let start = vec![*input, *column, *comparison];
                match *operand {
                    Operand::Constant(v) => (2, [start, halves(v).to_vec()].concat()),
                    Operand::Column(c) => (3, [start, vec![c]].concat()),
                }
            }
            Op::Project { input, columns } => (4, [&[*input, columns.len()][..], columns].concat()),
            Op::Join { left, right, pairs, columns } => {
                let mut out = paired(*left, *right, pairs);
                out.push(columns.len());
                out.extend(columns);
                (5, out)
            }
            Op::Set { set, left, right } => (6 + *set as usize, vec![*left, *right]),
            Op::NoMatch { left, right, pairs } => (10, paired(*left, *right, pairs)),
        }
    }
}

/// The fields of two nodes and of pairs of their columns.
fn paired(left: usize, right: usize, pairs: &[(usize, usize)]) -> Vec<usize> {
    let columns = pairs.iter().flat_map(|&(l, r)| [l, r]);
    [left, right, pairs.len()].into_iter().chain(columns).collect()
}

/// A number's lower and upper 2 bytes.
pub fn halves(v: u32) -> [usize; 2] {
    [v as usize & 0xffff, v as usize >> 16]
}

/// A record: length, kind, fields.
pub fn record(kind: usize, fields: &[usize]) -> Vec<u8> {
    let start = [4 + 2 * fields.len(), kind];
    let all = start.iter().chain(fields);
    all.flat_map(|&x| (x as u16).to_le_bytes()).collect()
}

/// A node: its name, its columns' names, how it is made, and its level.
#[derive(Clone, Debug, PartialEq, Eq)]
pub struct Node {
    pub name: String,
    pub columns: Vec<String>,
    pub op: Op,
    pub level: usize,
}

/// One record of a network: the next node, or a watch with its sign, and with its priority if it has 10 bytes.
#[derive(Clone, Copy, Debug, PartialEq, Eq)]
pub enum Record {
    Node(usize),
    Watch { node: usize, sign: usize, priority: Option<usize> },
}

/// A network with names; its records are in their order.
#[derive(Clone, Debug, Default, PartialEq, Eq)]
pub struct Network {
    pub nodes: Vec<Node>,
    pub records: Vec<Record>,
}

/// The library's verdict on a network's bytes, by `bagwezin_read`.
pub fn judged(bytes: &[u8]) -> Result<(), Refusal> {
    outcome(raw::read(bytes, &mut [0; ANSWER])).map(|_| ())
}

impl Network {
    /// An accepted network, with made-up names; else the library's refusal, and what is wrong in words. Number 0 stands for a record that the library
    /// accepts and these tools do not know.
    pub fn from_bytes(bytes: &[u8]) -> Result<Network, (Refusal, String)> {
        if let Err(refusal) = judged(bytes) {
            return Err((refusal, refused::network(bytes, refusal)));
        }
        let mut net = Network::default();
        for at in offsets(bytes) {
            if let Err(text) = net.take(&bytes[at..]) {
                let refusal = Refusal { number: 0, place: at as u32 };
                let text = format!("at byte {at}: the library accepts this record, these tools do not know it: {text}");
                return Err((refusal, text));
            }
        }
        Ok(net)
    }

    pub fn bytes(&self) -> Vec<u8> {
        self.records.iter().flat_map(|&r| self.encoded(r)).collect()
    }

    /// One record's bytes.
    pub fn encoded(&self, r: Record) -> Vec<u8> {
        match r {
            Record::Node(i) => {
                let (kind, fields) = self.nodes[i].op.fields();
                record(kind, &fields)
            }
            Record::Watch { node, sign, priority } => {
                let fields: Vec<usize> = [node, sign].into_iter().chain(priority).collect();
                record(9, &fields)
            }
        }
    }

    /// The sign of a node's watch, and its priority if the record has one.
    pub fn watched(&self, node: usize) -> Option<(usize, Option<usize>)> {
        self.records.iter().find_map(|r| match *r {
            Record::Watch { node: n, sign, priority } if n == node => Some((sign, priority)),
            _ => None,
        })
    }

    /// A node's watch sign.
    pub fn sign(&self, node: usize) -> Option<usize> {
        self.watched(node).map(|(sign, _)| sign)
    }

    pub fn is_table(&self, node: usize) -> bool {
        matches!(self.nodes[node].op, Op::Table(_))
    }

    /// Adds a node.
    pub fn add(&mut self, name: String, columns: Vec<String>, op: Op) {
        let above = op.inputs().into_iter().map(|i| self.nodes[i].level + 1);
        let level = above.max().unwrap_or(0);
        self.records.push(Record::Node(self.nodes.len()));
        self.nodes.push(Node { name, columns, op, level });
    }

    /// The node and the column that a join's column counts.
    pub fn side(&self, left: usize, right: usize, column: usize) -> (usize, usize) {
        let wide = self.nodes[left].columns.len();
        match column.checked_sub(wide) {
            None => (left, column),
            Some(k) => (right, k),
        }
    }

    /// The names of the columns that an operation takes from its inputs, before any `as`.
    pub fn sources(&self, op: &Op) -> Vec<&str> {
        let of = |node: usize, k: usize| self.nodes[node].columns[k].as_str();
        let whole = |node: usize| {
            let columns = self.nodes[node].columns.iter();
            columns.map(String::as_str).collect()
        };
        match op {
            Op::Table(_) => vec![],
            Op::Select { input, .. } => whole(*input),
            Op::Project { input, columns } => columns.iter().map(|&k| of(*input, k)).collect(),
            Op::Join { left, right, columns, .. } => {
                let sides = columns.iter().map(|&k| self.side(*left, *right, k));
                sides.map(|(node, k)| of(node, k)).collect()
            }
            Op::Set { left, .. } | Op::NoMatch { left, .. } => whole(*left),
        }
    }

    /// Adds the record that bytes begin with, with made-up names, or says which field is wrong.
    pub fn take(&mut self, bytes: &[u8]) -> Result<(), String> {
        let record = fits(bytes)?;
        let (kind, fields) = (record[1], &record[2..]);
        if kind == 9 {
            let watch = self.watch(fields)?;
            self.records.push(watch);
            return Ok(());
        }
        let op = self.op(kind, fields)?;
        let columns = match op {
            Op::Table(width) => (0..width).map(|k| format!("c{k}")).collect(),
            _ => unique(&self.sources(&op)),
        };
        self.add(format!("n{}", self.nodes.len()), columns, op);
        Ok(())
    }

    fn earlier(&self, what: &str, node: usize) -> Result<usize, String> {
        match self.nodes.len() {
            n if node < n => Ok(self.nodes[node].columns.len()),
            0 => Err(format!("its {what} is node {node}, and there is none yet")),
            n => Err(format!("its {what} is node {node}, and the nodes before it are 0 to {}", n - 1)),
        }
    }

    /// A watch from its fields: node, sign, and a priority or none.
    fn watch(&self, f: &[usize]) -> Result<Record, String> {
        let (node, sign, priority) = (f[0], f[1], f.get(2).copied());
        self.earlier("node", node)?;
        if !(1..=SIGNS.len()).contains(&sign) {
            return Err(format!("its sign is {sign}, not 1 (gained), 2 (lost) or 3 (both)"));
        }
        if let Some(p) = priority.filter(|&p| p > PRIORITY) {
            return Err(format!("its priority is {p}, not 0 to {PRIORITY}"));
        }
        match self.sign(node) {
            Some(_) => Err(format!("node {node} has a watch already")),
            None => Ok(Record::Watch { node, sign, priority }),
        }
    }

    /// A node from its record's fields.
    fn op(&self, kind: usize, f: &[usize]) -> Result<Op, String> {
        match kind {
            1 if (1..=FIELDS).contains(&f[0]) => Ok(Op::Table(f[0])),
            1 => Err(format!("its width is {}, not 1 to {FIELDS}", f[0])),
            2 | 3 => self.select(kind, f),
            4 => {
                let columns = f[2..].to_vec();
                let wide = self.earlier("input", f[0])?;
                for &c in &columns {
                    within("column", c, wide)?;
                }
                Ok(Op::Project { input: f[0], columns })
            }
            5 => self.join(f),
            10 => Ok(Op::NoMatch { left: f[0], right: f[1], pairs: self.pairs_from(f)? }),
            _ => {
                let (l, r) = (self.earlier("left", f[0])?, self.earlier("right", f[1])?);
                if l != r {
                    return Err(format!("its left has rows of {l} fields, its right of {r}"));
                }
                Ok(Op::Set { set: SETS[kind - 6].0, left: f[0], right: f[1] })
            }
        }
    }

    fn select(&self, kind: usize, f: &[usize]) -> Result<Op, String> {
        let wide = self.earlier("input", f[0])?;
        within("column", f[1], wide)?;
        if f[2] >= COMPARISONS.len() {
            return Err(format!("its comparison is {}, not 0 to 5", f[2]));
        }
        let operand = if kind == 2 {
            Operand::Constant((f[3] + (f[4] << 16)) as u32)
        } else {
            within("second column", f[3], wide)?;
            Operand::Column(f[3])
        };
        Ok(Op::Select { input: f[0], column: f[1], comparison: f[2], operand })
    }

    fn join(&self, f: &[usize]) -> Result<Op, String> {
        let pairs = self.pairs_from(f)?;
        let wide = self.nodes[f[0]].columns.len() + self.nodes[f[1]].columns.len();
        let columns = f[4 + 2 * f[2]..].to_vec();
        for &c in &columns {
            within("column", c, wide)?;
        }
        Ok(Op::Join { left: f[0], right: f[1], pairs, columns })
    }

    /// The pairs of a record's fields, which begin with its left, its right, and the number of pairs.
    fn pairs_from(&self, f: &[usize]) -> Result<Vec<(usize, usize)>, String> {
        let (l, r) = (self.earlier("left", f[0])?, self.earlier("right", f[1])?);
        let pairs: Vec<(usize, usize)> = f[3..3 + 2 * f[2]].chunks(2).map(|p| (p[0], p[1])).collect();
        for &(a, b) in &pairs {
            within("left column of a pair", a, l)?;
            within("right column of a pair", b, r)?;
        }
        Ok(pairs)
    }
}

fn within(what: &str, column: usize, wide: usize) -> Result<(), String> {
    if column < wide {
        return Ok(());
    }
    Err(format!("its {what} is {column}, and the columns are 0 to {}", wide - 1))
}

/// Names made unique: the second `x` becomes `x_2`.
fn unique(names: &[&str]) -> Vec<String> {
    let mut out: Vec<String> = Vec::new();
    for name in names {
        let tries = (2..).map(|k| format!("{name}_{k}"));
        let mut all = std::iter::once(name.to_string()).chain(tries);
        out.extend(all.find(|n| !out.contains(n) && (n == name || !names.contains(&n.as_str()))));
    }
    out
}

/// The number in 2 bytes at an offset.
pub fn two(bytes: &[u8], at: usize) -> Option<usize> {
    Some(u16::from_le_bytes([*bytes.get(at)?, *bytes.get(at + 1)?]) as usize)
}

/// The length of the record that bytes begin with, or how it is broken.
pub fn length(bytes: &[u8]) -> Result<usize, String> {
    match two(bytes, 0) {
        _ if bytes.len() < 4 => {
            let remain = counted(bytes.len(), "byte remains", "bytes remain");
            Err(format!("{remain}, a record has at least 4"))
        }
        Some(n) if n < 4 => Err(format!("it says that it has {n} bytes, below 4")),
        Some(n) if n > bytes.len() => {
            let left = bytes.len();
            Err(format!("it says that it has {n} bytes, and {left} are left"))
        }
        n => Ok(n.unwrap_or(4)),
    }
}

/// Where records of unbroken lengths begin.
pub fn offsets(bytes: &[u8]) -> impl Iterator<Item = usize> + '_ {
    let mut at = 0;
    std::iter::from_fn(move || {
        let here = at;
        at += length(bytes.get(here..)?).ok()?;
        Some(here)
    })
}

/// A record's length, kind and fields, if its length is its kind's; else what its length should be.
pub fn fits(bytes: &[u8]) -> Result<Vec<usize>, String> {
    let size = length(bytes)?;
    let field = |k: usize| two(&bytes[..size], 2 * k);
    let kind = field(1).unwrap_or(0);
    let word = kind_word(kind).ok_or_else(|| format!("its kind is {kind}"))?;
    let count = |what: &str, k: usize, low: usize, high: usize| match field(k) {
        Some(n) if (low..=high).contains(&n) => Ok(n),
        Some(n) => Err(format!("its number of {what} is {n}, not {low} to {high}")),
        None => Err(format!("with {size} bytes it ends before its number of {what}")),
    };
    let right = match kind {
        1 => 6,
        2 => 14,
        3 => 12,
        4 => 8 + 2 * count("columns", 3, 1, FIELDS)?,
        5 => {
            let pairs = count("pairs", 4, 0, 2)?;
            12 + 4 * pairs + 2 * count("columns", 5 + 2 * pairs, 1, FIELDS)?
        }
        9 if size == 8 || size == 10 => size,
        9 => return Err(format!("it has {size} bytes, and a watch takes 8, or 10 with a priority")),
        10 => 10 + 4 * count("pairs", 4, 1, 2)?,
        _ => 8,
    };
    if size != right {
        return Err(format!("it has {size} bytes, and this {word} takes {right}"));
    }
    Ok((0..size / 2).filter_map(field).collect())
}

/// The word of a record's kind.
pub fn kind_word(kind: usize) -> Option<&'static str> {
    let words = [
        "table",
        "select by a constant",
        "select by two columns",
        "project",
        "join",
        "union",
        "minus",
        "intersect",
        "watch",
        "no match",
    ];
    words.get(kind.checked_sub(1)?).copied()
}
