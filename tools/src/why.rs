//! Why a row is at a node, through the network down to the tables' rows; or why it is not.
use std::collections::BTreeSet;

use crate::grammar::counted;
use crate::network::{Op, Set};
use crate::station::Station;
use crate::{grammar, Network, Row};

/// The most origins of one row that are listed unless all are asked for.
const LISTED: usize = 8;

/// A row from its words: numbers in the columns' order, or `COLUMN=NUMBER` for each column.
pub fn row(net: &Network, node: usize, words: &[&str]) -> Result<Row, String> {
    let n = &net.nodes[node];
    let shape = || {
        let named: Vec<String> = n.columns.iter().map(|c| format!("{c}=NUMBER")).collect();
        let numbers = counted(n.columns.len(), "number", "numbers");
        format!("a row of '{}' is {numbers}, or {}", n.name, named.join(" "))
    };
    let mut fields = vec![None; n.columns.len()];
    for (k, word) in words.iter().enumerate() {
        let (k, value) = match word.split_once('=') {
            Some((column, value)) => (grammar::column(net, node, column)?, value),
            None => (k, *word),
        };
        match fields.get_mut(k) {
            Some(place @ None) => *place = Some(grammar::number(value)?),
            _ => return Err(shape()),
        }
    }
    fields.into_iter().collect::<Option<Row>>().ok_or_else(shape)
}

/// The answer for a row of a node.
pub fn why(station: &Station, node: usize, row: &[u32], all: bool) -> String {
    let mut teller = Teller {
        station,
        most: if all { usize::MAX } else { LISTED },
        seen: BTreeSet::new(),
        asked: BTreeSet::new(),
        out: String::new(),
    };
    let when = match station.number {
        0 => "before any batch".to_string(),
        k => format!("after batch {k}"),
    };
    let is = if teller.there(node, row) { "is" } else { "is not" };
    let named = station.net.row_named(node, row);
    teller.out = format!("{when}, {named} {is} there\n");
    teller.tell(1, "", node, row);
    teller.out
}

impl Network {
    /// A row of a node in words: `advice (owner 70, block 5)`.
    pub fn row_named(&self, node: usize, row: &[u32]) -> String {
        let fields: Vec<(usize, u32)> = (0..).zip(row.iter().copied()).collect();
        let n = &self.nodes[node];
        format!("{} ({})", n.name, self.fields_named(node, &fields))
    }

    /// Fields of a node in words: `block 5, week 22`.
    fn fields_named(&self, node: usize, fields: &[(usize, u32)]) -> String {
        let columns = &self.nodes[node].columns;
        let each = fields.iter().map(|&(k, v)| format!("{} {v}", columns[k]));
        each.collect::<Vec<_>>().join(", ")
    }
}

/// What is known of a row: columns and their values.
type Known = Vec<(usize, u32)>;

/// Columns and values without repeats; none if a column has two values.
fn agreed(columns: impl Iterator<Item = (usize, u32)>) -> Option<Known> {
    let mut out = Known::new();
    for (k, v) in columns {
        match out.iter().find(|x| x.0 == k) {
            Some(&(_, other)) if other != v => return None,
            Some(_) => {}
            None => out.push((k, v)),
        }
    }
    out.sort_unstable();
    Some(out)
}

fn fits(row: &[u32], known: &[(usize, u32)]) -> bool {
    known.iter().all(|&(k, v)| row[k] == v)
}

/// Whether a left row and a right one agree on pairs of columns.
fn meet(left: &[u32], right: &[u32], pairs: &[(usize, usize)]) -> bool {
    pairs.iter().all(|&(a, b)| left[a] == right[b])
}

/// Writes the lines of an answer.
struct Teller<'a> {
    station: &'a Station<'a>,
    most: usize,
    seen: BTreeSet<(usize, Row)>,
    asked: BTreeSet<(usize, Known)>,
    out: String,
}

impl Teller<'_> {
    fn net(&self) -> &Network {
        self.station.net
    }

    fn name(&self, node: usize) -> &str {
        &self.net().nodes[node].name
    }

    fn there(&self, node: usize, row: &[u32]) -> bool {
        self.station.rows[node].contains(row)
    }

    fn line(&mut self, depth: usize, text: &str) {
        self.out += &format!("{}{text}\n", "  ".repeat(depth));
    }

    /// A row and its origins, or why it is not there.
    fn tell(&mut self, depth: usize, before: &str, node: usize, row: &[u32]) {
        let named = format!("{before}{}", self.net().row_named(node, row));
        if self.there(node, row) {
            match self.seen.insert((node, row.to_vec())) {
                true => self.origins(depth, &named, node, row),
                false => self.line(depth, &format!("{named}: see above")),
            }
        } else {
            let known: Known = (0..).zip(row.iter().copied()).collect();
            self.absence(depth, before, node, &known);
        }
    }

    /// The batch in which a row of a node last came or went.
    fn batch(&self, node: usize, row: &[u32]) -> Option<u32> {
        self.station.moved[node].get(row).copied()
    }

    fn origins(&mut self, depth: usize, named: &str, node: usize, row: &[u32]) {
        let op = self.net().nodes[node].op.clone();
        match op {
            Op::Table(_) => {
                let batch = self.batch(node, row).unwrap_or(0);
                self.line(depth, &format!("{named}: put in batch {batch}"));
            }
            Op::Select { input, .. } => {
                let test = self.net().test(node);
                self.line(depth, &format!("{named}: passes {test}"));
                self.tell(depth + 1, "", input, row);
            }
            Op::Project { input, columns } => {
                let fields = agreed(columns.iter().copied().zip(row.iter().copied()));
                let from = self.matching(input, &fields.unwrap_or_default());
                let count = counted(from.len(), "row", "rows");
                self.line(depth, &format!("{named}: from {count} of {}", self.name(input)));
                self.tell_rows(depth + 1, input, &from);
            }
            Op::Join { left, right, .. } => self.join_origins(depth, named, node, (left, right), row),
            Op::Set { set, left, right } => self.set_origins(depth, named, row, (set, left, right)),
            Op::NoMatch { left, right, .. } => {
                let (l, r, on) = (self.name(left), self.name(right), self.net().pairs(node));
                self.line(depth, &format!("{named}: in {l}, and no row of {r} agrees on {on}"));
                self.tell(depth + 1, "", left, row);
            }
        }
    }

    fn join_origins(&mut self, depth: usize, named: &str, node: usize, (left, right): (usize, usize), row: &[u32]) {
        let pairs = self.pairs(node, row);
        let on = match self.net().pairs(node) {
            on if on.is_empty() => on,
            on => format!(" with {on}"),
        };
        let (l, r, count) = (self.name(left), self.name(right), counted(pairs.len(), "pair", "pairs"));
        self.line(depth, &format!("{named}: from {count} of {l} and {r}{on}"));
        for (a, b) in pairs.iter().take(self.most) {
            self.tell(depth + 1, "", left, a);
            self.tell(depth + 1, "and ", right, b);
        }
        self.more(depth + 1, pairs.len(), "pairs");
    }

    fn set_origins(&mut self, depth: usize, named: &str, row: &[u32], (set, left, right): (Set, usize, usize)) {
        let (l, r) = (self.name(left).to_string(), self.name(right).to_string());
        let sides: Vec<usize> = [left, right].into_iter().filter(|&s| self.there(s, row)).collect();
        let reason = match (set, &sides[..]) {
            (Set::Minus, _) => format!("in {l} and not in {r}"),
            (_, [one]) => format!("in {}", self.name(*one)),
            _ => format!("in {l} and in {r}"),
        };
        self.line(depth, &format!("{named}: {reason}"));
        for side in sides {
            self.tell(depth + 1, "", side, row);
        }
    }

    /// Rows of a node, each with its origins.
    fn tell_rows(&mut self, depth: usize, node: usize, rows: &[Row]) {
        for row in rows.iter().take(self.most) {
            self.tell(depth, "", node, row);
        }
        self.more(depth, rows.len(), "rows");
    }

    fn more(&mut self, depth: usize, count: usize, what: &str) {
        if count > self.most {
            let more = count - self.most;
            self.line(depth, &format!("and {more} more {what} (--all lists them)"));
        }
    }

    /// A node's rows that have known fields.
    fn matching(&self, node: usize, known: &[(usize, u32)]) -> Vec<Row> {
        let rows = self.station.rows[node].iter();
        rows.filter(|r| fits(r, known)).cloned().collect()
    }

    /// The pairs of rows that a join makes a row from.
    fn pairs(&self, node: usize, row: &[u32]) -> Vec<(Row, Row)> {
        let Op::Join { left, right, pairs, columns } = &self.net().nodes[node].op else {
            return Vec::new();
        };
        let mut out = Vec::new();
        for l in &self.station.rows[*left] {
            for r in self.station.rows[*right].iter().filter(|r| meet(l, r, pairs)) {
                let field = |k: usize| *l.get(k).unwrap_or_else(|| &r[k - l.len()]);
                if columns.iter().zip(row).all(|(&k, &v)| field(k) == v) {
                    out.push((l.clone(), r.clone()));
                }
            }
        }
        out
    }

    /// Known fields of a node in words, and that no row has them.
    fn missing(&self, node: usize, known: &[(usize, u32)]) -> String {
        let (name, wide) = (self.name(node), self.net().nodes[node].columns.len());
        let fields = self.net().fields_named(node, known);
        match known.len() {
            n if n == wide => format!("{name} ({fields}): not there"),
            0 => format!("{name}: has no row"),
            _ => format!("{name} with {fields}: no such row"),
        }
    }

    /// Why no row of a node has known fields.
    fn absence(&mut self, depth: usize, before: &str, node: usize, known: &[(usize, u32)]) {
        let missing = format!("{before}{}", self.missing(node, known));
        if !self.asked.insert((node, known.to_vec())) {
            return self.line(depth, &format!("{missing}: see above"));
        }
        let op = self.net().nodes[node].op.clone();
        match op {
            Op::Table(_) => self.no_entry(depth, &missing, node, known),
            Op::Select { input, .. } => self.none_passes(depth, &missing, (node, input), known),
            Op::Project { input, columns } => {
                let fields = known.iter().map(|&(k, v)| (columns[k], v));
                match agreed(fields) {
                    Some(fields) => {
                        self.line(depth, &missing);
                        self.absence(depth + 1, "", input, &fields);
                    }
                    None => {
                        let name = self.name(input);
                        let text = format!("{missing}: two of its fields are one field of {name}");
                        self.line(depth, &text);
                    }
                }
            }
            Op::Join { left, right, pairs, columns } => {
                let fields = known.iter().map(|&(k, v)| (columns[k], v)).collect();
                self.no_pair(depth, &missing, fields, (left, right, &pairs));
            }
            Op::Set { set, left, right } => self.set_absence(depth, &missing, known, (set, left, right)),
            Op::NoMatch { left, right, pairs } => self.kept_out(depth, &missing, known, (left, right, &pairs)),
        }
    }

    fn none_passes(&mut self, depth: usize, missing: &str, (node, input): (usize, usize), known: &[(usize, u32)]) {
        let failing = self.matching(input, known);
        let (name, test) = (self.name(input), self.net().test(node));
        let reason = match failing.len() {
            0 => String::new(),
            1 => format!(": 1 row of {name} fails {test}"),
            n => format!(": {n} rows of {name} fail {test}"),
        };
        self.line(depth, &format!("{missing}{reason}"));
        self.rows_or_absence(depth + 1, input, known, &failing);
    }

    /// Rows of a node that have known fields, or why there are none.
    fn rows_or_absence(&mut self, depth: usize, node: usize, known: &[(usize, u32)], rows: &[Row]) {
        if rows.is_empty() {
            self.absence(depth, "", node, known);
        }
        self.tell_rows(depth, node, rows);
    }

    fn no_entry(&mut self, depth: usize, missing: &str, table: usize, known: &[(usize, u32)]) {
        let gone = self.station.moved[table].iter();
        let gone: Vec<(Row, u32)> =
            gone.filter(|(row, _)| fits(row, known)).map(|(row, batch)| (row.clone(), *batch)).collect();
        match gone[..] {
            [] => return self.line(depth, &format!("{missing}: no batch has put it")),
            [(ref row, batch)] if row.len() == known.len() => {
                return self.line(depth, &format!("{missing}: removed in batch {batch}"))
            }
            _ => {}
        }
        self.line(depth, missing);
        for (row, batch) in gone.iter().take(self.most) {
            let named = self.net().row_named(table, row);
            self.line(depth + 1, &format!("{named}: removed in batch {batch}"));
        }
        self.more(depth + 1, gone.len(), "rows");
    }

    fn no_pair(
        &mut self,
        depth: usize,
        missing: &str,
        fields: Known,
        (left, right, pairs): (usize, usize, &[(usize, usize)]),
    ) {
        let wide = self.net().nodes[left].columns.len();
        let Some(fields) = agreed(carried(fields, wide, pairs).into_iter()) else {
            let text = format!("{missing}: fields that the join makes equal differ in it");
            return self.line(depth, &text);
        };
        let (l, r): (Known, Known) = fields.into_iter().partition(|x| x.0 < wide);
        let r: Known = r.into_iter().map(|(k, v)| (k - wide, v)).collect();
        let (some, others) = (self.matching(left, &l), self.matching(right, &r));
        let (x, y) = (self.name(left).to_string(), self.name(right).to_string());
        self.line(depth, &format!("{missing}: no pair of {x} and {y} makes it"));
        if some.is_empty() {
            self.absence(depth + 1, "", left, &l);
        }
        if others.is_empty() {
            self.absence(depth + 1, "", right, &r);
        }
        if !some.is_empty() && !others.is_empty() {
            let rows = |list: &[Row]| counted(list.len(), "row", "rows");
            let (a, b) = (rows(&some), rows(&others));
            let test = self.net().pairs_of(left, right, pairs);
            let text = format!("{a} of {x} and {b} of {y} would fit, and no two agree on {test}");
            self.line(depth + 1, &text);
        }
    }

    fn set_absence(
        &mut self,
        depth: usize,
        missing: &str,
        known: &[(usize, u32)],
        (set, left, right): (Set, usize, usize),
    ) {
        let (some, others) = (self.matching(left, known), self.matching(right, known));
        let (l, r) = (self.name(left).to_string(), self.name(right).to_string());
        let (reason, sides) = match (set, some.is_empty(), others.is_empty()) {
            (Set::Minus, false, _) => (format!("kept out by {r}"), vec![right]),
            (Set::Minus, ..) | (Set::Intersect, true, false) => (format!("not in {l}"), vec![left]),
            (Set::Intersect, false, true) => (format!("not in {r}"), vec![right]),
            (Set::Intersect, false, false) => (format!("no row is in {l} and in {r}"), vec![]),
            _ => (format!("neither in {l} nor in {r}"), vec![left, right]),
        };
        self.line(depth, &format!("{missing}: {reason}"));
        for side in sides {
            let kept = set == Set::Minus && side == right;
            let rows = if kept { some.clone() } else { Vec::new() };
            self.rows_or_absence(depth + 1, side, known, &rows);
        }
    }

    /// Why a no match has no row with known fields: no left row has them, or right rows agree with those that do.
    fn kept_out(
        &mut self,
        depth: usize,
        missing: &str,
        known: &[(usize, u32)],
        (left, right, pairs): (usize, usize, &[(usize, usize)]),
    ) {
        let some = self.matching(left, known);
        if some.is_empty() {
            self.line(depth, &format!("{missing}: not in {}", self.name(left)));
            return self.absence(depth + 1, "", left, known);
        }
        let rows = self.station.rows[right].iter();
        let others: Vec<Row> = rows.filter(|r| some.iter().any(|l| meet(l, r, pairs))).cloned().collect();
        let (r, on) = (self.name(right), self.net().pairs_of(left, right, pairs));
        let count = counted(others.len(), "row", "rows");
        self.line(depth, &format!("{missing}: kept out by {count} of {r} with {on}"));
        self.tell_rows(depth + 1, right, &others);
    }
}

/// Fields of a left row, then a right one: what is known of one side of a pair is known of the other.
fn carried(mut fields: Known, wide: usize, pairs: &[(usize, usize)]) -> Known {
    for _ in 0..=2 * pairs.len() {
        for &(a, b) in pairs {
            let other = |k: usize| match k {
                _ if k == a => Some(wide + b),
                _ if k == wide + b => Some(a),
                _ => None,
            };
            let more = fields.iter().filter_map(|&(k, v)| Some((other(k)?, v)));
            fields = fields.iter().copied().chain(more).collect();
            fields.sort_unstable();
            fields.dedup();
        }
    }
    fields
}
