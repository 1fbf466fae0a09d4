//! Pictures of networks: nodes by level from the top down, watches marked; with a station's state, each node's rows and last changes.
mod dot;
mod layout;
mod svg;

pub use dot::{dot, graphviz};
pub use svg::svg;

use crate::grammar::counted;
use crate::network::{Network, Op};
use crate::station::Station;
use crate::Row;

/// The named words of an area, and of all four with the head.
const AREA: usize = 8192;
const WORDS: usize = 3 * AREA + 162;

/// The most rows that are listed in a node's box.
const LISTED: usize = 8;

/// The most letters of a line in a box.
const LETTERS: usize = 28;

/// A node's rows and its last changes.
#[derive(Clone, Debug, Default, PartialEq, Eq)]
pub struct Held {
    pub rows: Vec<Row>,
    pub gained: Vec<Row>,
    pub lost: Vec<Row>,
}

/// What a station's areas hold: rows, gained, lost and head one after the other, each word in 4 bytes, the lowest first.
pub fn held(net: &Network, bytes: &[u8]) -> Result<Vec<Held>, String> {
    if bytes.len() != 4 * WORDS {
        return Err(format!("areas have {} bytes, not {}", 4 * WORDS, bytes.len()));
    }
    let words: Vec<u32> = bytes.chunks(4).map(|w| u32::from_le_bytes([w[0], w[1], w[2], w[3]])).collect();
    let rows = |i: usize, area: usize, counts: usize| {
        let count = words[3 * AREA + counts + i] as usize;
        if count > 64 {
            return Err(format!("node {i} has {count} rows, above 64: the areas are not of good form"));
        }
        let at = |j: usize| area * AREA + 256 * i + 4 * j;
        let wide = net.nodes[i].columns.len();
        Ok((0..count).map(|j| words[at(j)..at(j) + wide].to_vec()).collect())
    };
    let node = |i: usize| Ok(Held { rows: rows(i, 0, 1)?, gained: rows(i, 1, 65)?, lost: rows(i, 2, 97)? });
    (0..net.nodes.len()).map(node).collect()
}

/// What a station holds after its batches.
pub fn state(station: &Station) -> Vec<Held> {
    let node = |i: usize| {
        let change = station.change(i);
        Held { rows: station.rows[i].iter().cloned().collect(), gained: change.gained, lost: change.lost }
    };
    (0..station.net.nodes.len()).map(node).collect()
}

/// How a line of a box looks.
#[derive(Clone, Copy, Debug, PartialEq, Eq)]
enum Look {
    Title,
    Columns,
    Plain,
    Note,
    Gained,
    Lost,
}

type Line = (String, Look);

/// What a node's box is, for its colours.
#[derive(Clone, Copy, Debug, PartialEq, Eq)]
enum Sort {
    Table,
    Derived,
    Watched,
}

fn sort(net: &Network, node: usize) -> Sort {
    match net.sign(node) {
        Some(_) => Sort::Watched,
        None if net.is_table(node) => Sort::Table,
        None => Sort::Derived,
    }
}

/// Fill and edge colours of a box.
fn colours(sort: Sort) -> (&'static str, &'static str) {
    match sort {
        Sort::Table => ("#e4f0e4", "#4a7a4a"),
        Sort::Derived => ("#eaf0fa", "#4a628a"),
        Sort::Watched => ("#fff4d6", "#b8860b"),
    }
}

/// Edges' colours, by the node they come from.
const EDGES: [&str; 8] = ["#4e79a7", "#b35806", "#3f8f5f", "#8c5aa8", "#c0504d", "#5f6b7a", "#9a7d0a", "#2a8fa0"];

/// What a node does, in words.
fn says(net: &Network, i: usize) -> String {
    let name = |k: usize| shortened(&net.nodes[k].name);
    match &net.nodes[i].op {
        Op::Table(_) => "table".into(),
        Op::Select { input, .. } => format!("{} where {}", name(*input), whole(&net.test(i))),
        Op::Project { input, .. } => format!("columns of {}", name(*input)),
        Op::Join { left, right, .. } => match net.pairs(i) {
            on if on.is_empty() => format!("each {} with each {}", name(*left), name(*right)),
            on => format!("{} with {} {}", name(*left), name(*right), whole_pairs(&on)),
        },
        Op::Set { set, left, right } => {
            format!("{} {} {}", name(*left), set.word(), name(*right))
        }
        Op::NoMatch { left, right, .. } => {
            format!("{} nomatch {} {}", name(*left), name(*right), whole_pairs(&net.pairs(i)))
        }
    }
}

/// Pairs of columns after their `on`, each better not broken.
fn whole_pairs(pairs: &str) -> String {
    let each: Vec<String> = pairs.split(" and ").map(whole).collect();
    format!("on\u{a0}{}", each.join(" and\u{a0}"))
}

/// A text that is better not broken.
fn whole(text: &str) -> String {
    text.replace(' ', "\u{a0}")
}

/// A word that fits a line.
fn shortened(word: &str) -> String {
    if word.chars().count() <= LETTERS {
        return word.into();
    }
    let start: String = word.chars().take(LETTERS - 1).collect();
    start + "\u{2026}"
}

/// A text in lines that fit a box.
fn wrapped(text: &str, look: Look) -> Vec<Line> {
    let mut out: Vec<String> = Vec::new();
    let fits = |word: &&str| word.chars().count() <= LETTERS;
    let pieces = text.split(' ').flat_map(|word| match fits(&word) {
        true => vec![word],
        false => word.split('\u{a0}').collect(),
    });
    for word in pieces.map(shortened) {
        match out.last_mut() {
            Some(line) if line.chars().count() + 1 + word.chars().count() <= LETTERS => {
                *line += " ";
                *line += &word;
            }
            _ => out.push(word),
        }
    }
    out.into_iter().map(|line| (line, look)).collect()
}

/// The lines of a node's box.
fn lines(net: &Network, i: usize, held: Option<&Held>) -> Vec<Line> {
    let node = &net.nodes[i];
    let mut out = wrapped(&format!("{i} {}", node.name), Look::Title);
    out.extend(wrapped(&node.columns.join(", "), Look::Columns));
    if !net.is_table(i) {
        out.extend(wrapped(&says(net, i), Look::Plain));
    }
    if let Some((sign, priority)) = net.watched(i) {
        let words = ["gained", "lost", "gained and lost"];
        let priority = priority.map_or(String::new(), |p| format!(", priority\u{a0}{p}"));
        let watched = format!("watched: {}{priority}", words[sign - 1]);
        out.extend(wrapped(&watched, Look::Note));
    }
    if let Some(held) = held {
        out.extend(wrapped(&counts(held), Look::Note));
        out.extend(listed(held));
    }
    out
}

/// How many rows a node has, and how many the last batch changed.
fn counts(held: &Held) -> String {
    let (rows, gained, lost) = (held.rows.len(), held.gained.len(), held.lost.len());
    let mut out = counted(rows, "row", "rows");
    if gained > 0 {
        out += &format!(", {gained} gained");
    }
    if lost > 0 {
        out += &format!(", {lost} lost");
    }
    out
}

/// A node's rows, gained ones marked, then those that it lost.
fn listed(held: &Held) -> Vec<Line> {
    let line = |mark: &str, row: &Row| {
        let fields: Vec<String> = row.iter().map(u32::to_string).collect();
        format!("{mark} {}", fields.join(" "))
    };
    let has = held.rows.iter().map(|r| match held.gained.contains(r) {
        true => (line("+", r), Look::Gained),
        false => (line("\u{a0}", r), Look::Plain),
    });
    let gone = held.lost.iter().map(|r| (line("\u{2212}", r), Look::Lost));
    let all: Vec<Line> = has.chain(gone).collect();
    let more = all.len().saturating_sub(LISTED);
    let mut out: Vec<Line> = all.into_iter().take(LISTED).collect();
    if more > 0 {
        out.push((format!("and {more} more"), Look::Note));
    }
    out
}
