//! A picture in SVG.
use super::layout::{layout, Edge, Size};
use super::{colours, lines, sort, Held, Line, Look, EDGES};
use crate::Network;

const LINE: f64 = 15.0;
const SIDE: f64 = 9.0;
const NARROWEST: f64 = 84.0;
const ARROW: f64 = 8.0;

fn escaped(text: &str) -> String {
    text.replace('&', "&amp;").replace('<', "&lt;").replace('>', "&gt;")
}

/// Size, weight and colour of a line.
fn font(look: Look) -> (f64, &'static str, &'static str) {
    match look {
        Look::Title => (13.0, " font-weight=\"bold\"", "#111111"),
        Look::Columns => (12.0, " font-style=\"italic\"", "#333333"),
        Look::Plain => (12.0, "", "#333333"),
        Look::Note => (12.0, "", "#7a4f00"),
        Look::Gained => (12.0, "", "#176b17"),
        Look::Lost => (12.0, "", "#a51d1d"),
    }
}

/// About how wide a line is, rather too wide than too narrow.
fn wide(line: &Line) -> f64 {
    let size = font(line.1).0;
    let letter = |c: char| match c {
        'i' | 'j' | 'l' | '.' | ',' | '\'' | ' ' | ':' | '|' => 0.33,
        'f' | 'r' | 't' | '(' | ')' | '-' => 0.42,
        'm' | 'w' | 'M' | 'W' => 0.95,
        '=' | '<' | '>' | '+' | '\u{2212}' => 0.84,
        _ => 0.62,
    };
    let bold = if line.1 == Look::Title { 1.08 } else { 1.0 };
    line.0.chars().map(letter).sum::<f64>() * size * bold
}

fn size(lines: &[Line]) -> Size {
    let widest = lines.iter().map(wide).fold(0.0, f64::max);
    Size { wide: (widest + 2.0 * SIDE).max(NARROWEST).round(), high: LINE * lines.len() as f64 + 10.0 }
}

/// An edge's line from one of its steps on: straight through rows, curved between them.
fn path(edge: &Edge, from: usize) -> String {
    let first = &edge.steps[from];
    let top = if from == 0 { first.top } else { first.bottom };
    let mut out = format!("M{:.1} {top:.1}", first.x);
    if first.bottom > top {
        out += &format!("V{:.1}", first.bottom);
    }
    let last = edge.steps.len() - 1;
    for k in from + 1..=last {
        let (a, b) = (edge.steps[k - 1], edge.steps[k]);
        let end = if k == last { b.top - ARROW + 1.0 } else { b.top };
        let middle = (a.bottom + end) / 2.0;
        out += &format!("C{:.1} {middle:.1} {:.1} {middle:.1} {:.1} {end:.1}", a.x, b.x, b.x);
        if b.bottom > b.top {
            out += &format!("V{:.1}", b.bottom);
        }
    }
    out
}

/// The step from which on an edge runs by itself: before it, it shares the lanes of an edge that is drawn already.
fn own_step(edge: &Edge, drawn: &[&Edge]) -> usize {
    let shared = |other: &&Edge| {
        let both = edge.steps.iter().zip(&other.steps);
        both.take_while(|(a, b)| a == b).count()
    };
    let most = drawn.iter().map(shared).max().unwrap_or(0);
    most.min(edge.steps.len() - 1).saturating_sub(1)
}

/// The edges from one node: white below, so that crossings can be told apart, then colour and arrowheads.
fn edges_from(net: &Network, edges: &[Edge], from: usize) -> String {
    let own: Vec<&Edge> = edges.iter().filter(|e| e.from == from).collect();
    let paths: Vec<String> = (0..own.len()).map(|k| path(own[k], own_step(own[k], &own[..k]))).collect();
    let colour = EDGES[from % EDGES.len()];
    let mut out = String::new();
    for path in &paths {
        out += &format!("<path d=\"{path}\" fill=\"none\" stroke=\"#ffffff\" stroke-width=\"5\"/>\n");
    }
    for (edge, path) in own.iter().zip(&paths) {
        let title = format!("{} to {}", net.nodes[from].name, net.nodes[edge.to].name);
        out += &format!(
            "<path class=\"edge\" d=\"{path}\" fill=\"none\" stroke=\"{colour}\" stroke-width=\"1.6\"><title>{}</title></path>\n",
            escaped(&title)
        );
    }
    for edge in own {
        let end = edge.steps[edge.steps.len() - 1];
        out +=
            &format!("<path class=\"arrow\" d=\"M{:.1} {:.1}l-4 -{ARROW}h8z\" fill=\"{colour}\"/>\n", end.x, end.top);
    }
    out
}

fn node_box(net: &Network, i: usize, texts: &[Line], (x, y): (f64, f64), size: Size) -> String {
    let (fill, edge) = colours(sort(net, i));
    let mut out = format!(
        "<rect class=\"node\" x=\"{x:.1}\" y=\"{y:.1}\" width=\"{:.0}\" height=\"{:.0}\" rx=\"6\" fill=\"{fill}\" stroke=\"{edge}\" stroke-width=\"1.5\"/>\n",
        size.wide, size.high
    );
    for (k, (text, look)) in texts.iter().enumerate() {
        let (letters, style, colour) = font(*look);
        let (left, base) = (x + SIDE, y + 17.0 + LINE * k as f64);
        out += &format!(
            "<text x=\"{left:.1}\" y=\"{base:.1}\" font-size=\"{letters}\"{style} fill=\"{colour}\">{}</text>\n",
            escaped(text)
        );
    }
    out
}

/// The picture of a network, with what a station holds where that is given.
pub fn svg(net: &Network, state: Option<&[Held]>) -> String {
    let texts: Vec<Vec<Line>> = (0..net.nodes.len()).map(|i| lines(net, i, state.and_then(|s| s.get(i)))).collect();
    let sizes: Vec<Size> = texts.iter().map(|t| size(t)).collect();
    let placed = layout(net, &sizes);
    let Size { wide, high } = placed.size;
    let (wide, high) = (wide.ceil(), high.ceil());
    let mut out = format!("<svg xmlns=\"http://www.w3.org/2000/svg\" width=\"{wide}\" height=\"{high}\" viewBox=\"0 0 {wide} {high}\" font-family=\"Helvetica, Arial, sans-serif\">\n<rect width=\"{wide}\" height=\"{high}\" rx=\"8\" fill=\"#ffffff\"/>\n");
    for (level, (top, bottom)) in placed.levels.iter().enumerate() {
        if level % 2 == 0 {
            let (y, tall) = (top - 8.0, bottom - top + 16.0);
            out += &format!(
                "<rect x=\"4\" y=\"{y:.1}\" width=\"{}\" height=\"{tall:.1}\" rx=\"6\" fill=\"#f4f4f1\"/>\n",
                wide - 8.0
            );
        }
        let base = top + 17.0;
        out += &format!("<text x=\"12\" y=\"{base:.1}\" font-size=\"11\" fill=\"#6b6b6b\">level {level}</text>\n");
    }
    for from in 0..net.nodes.len() {
        out += &edges_from(net, &placed.edges, from);
    }
    for i in 0..net.nodes.len() {
        out += &node_box(net, i, &texts[i], placed.boxes[i], sizes[i]);
    }
    out + "</svg>\n"
}
