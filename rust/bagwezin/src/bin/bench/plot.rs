//! The plot of growth, as SVG: panels side by side on one scale of scans, library and model as two lines.
use std::fmt::Write;

/// A size, its place on the x axis from 0 to 1, and the times in scans.
pub struct Point {
    pub at: f64,
    pub size: usize,
    pub library: f64,
    pub model: f64,
}

/// What the x axis counts, what stays the same, and the points.
pub struct Panel {
    pub axis: &'static str,
    pub fixed: &'static str,
    pub points: Vec<Point>,
}

const WIDTH: f64 = 1000.0;
const HEIGHT: f64 = 390.0;
/// The panels' first left side, the distance from one to the next, their width, top and bottom.
const LEFT: f64 = 84.0;
const STEP: f64 = 308.0;
const WIDE: f64 = 276.0;
const TOP: f64 = 56.0;
const BOTTOM: f64 = 316.0;
/// Between a panel's sides and its first and last point.
const MARGIN: f64 = 30.0;

/// One of the two lines: name, colour, and the side of a point where its number stands.
struct Series {
    name: &'static str,
    colour: &'static str,
    below: bool,
    value: fn(&Point) -> f64,
}

const SERIES: [Series; 2] = [
    Series { name: "library", colour: "#0b5fa5", below: true, value: |p| p.library },
    Series { name: "independent model", colour: "#b8500c", below: false, value: |p| p.model },
];

/// The numbers of the y axis, 1, 2, 5, 10, 20, 50 and so on, to the first that leaves room above the largest value.
fn ticks(panels: &[Panel]) -> Vec<f64> {
    let points = panels.iter().flat_map(|panel| &panel.points);
    let largest = points.map(|p| p.library.max(p.model)).fold(1.0, f64::max);
    let all = || (0..9).flat_map(|power| [1.0, 2.0, 5.0].map(|digit| digit * 10f64.powi(power)));
    let last = all().find(|&tick| tick >= 1.2 * largest).unwrap_or(f64::MAX);
    all().take_while(|&tick| tick <= last).collect()
}

/// The place of a number of scans, on a log scale from 1 to the last tick.
fn height(scans: f64, last: f64) -> f64 {
    BOTTOM - (BOTTOM - TOP) * scans.max(1.0).ln() / last.ln()
}

fn text(out: &mut String, (x, y): (f64, f64), anchor: &str, style: &str, words: &str) {
    let _ = writeln!(out, "<text x=\"{x:.1}\" y=\"{y:.1}\" text-anchor=\"{anchor}\"{style}>{words}</text>");
}

/// The frame of a panel, its lines of equal scans, and its axis.
fn frame(out: &mut String, panel: &Panel, left: f64, ticks: &[f64]) {
    let last = *ticks.last().unwrap_or(&1.0);
    for &tick in ticks {
        let (y, right) = (height(tick, last), left + WIDE);
        let _ = writeln!(out, "<path d=\"M{left:.1} {y:.1}H{right:.1}\" stroke=\"#d5d9de\"/>");
        text(out, (left - 6.0, y + 4.0), "end", " fill=\"#444444\"", &tick.to_string());
    }
    let _ = writeln!(out, "<path d=\"M{left:.1} {TOP}V{BOTTOM}h{WIDE}\" fill=\"none\" stroke=\"#444444\"/>");
    for point in &panel.points {
        let x = across(point, left);
        let _ = writeln!(out, "<path d=\"M{x:.1} {BOTTOM}v5\" stroke=\"#444444\"/>");
        text(out, (x, BOTTOM + 20.0), "middle", " fill=\"#444444\"", &point.size.to_string());
    }
    let middle = left + WIDE / 2.0;
    text(out, (middle, BOTTOM + 42.0), "middle", "", panel.axis);
    text(out, (middle, BOTTOM + 60.0), "middle", " fill=\"#666666\" font-size=\"12\"", panel.fixed);
}

fn across(point: &Point, left: f64) -> f64 {
    left + MARGIN + (WIDE - 2.0 * MARGIN) * point.at
}

/// The mark of a series: a dot for the library, a square for the model.
fn mark(out: &mut String, series: &Series, (x, y): (f64, f64)) {
    let colour = series.colour;
    let _ = match series.below {
        true => writeln!(out, "<circle cx=\"{x:.1}\" cy=\"{y:.1}\" r=\"4\" fill=\"{colour}\"/>"),
        false => {
            let (x, y) = (x - 3.5, y - 3.5);
            writeln!(out, "<rect x=\"{x:.1}\" y=\"{y:.1}\" width=\"7\" height=\"7\" fill=\"{colour}\"/>")
        }
    };
}

/// One line of a panel, with its points and their numbers.
fn line(out: &mut String, panel: &Panel, series: &Series, left: f64, last: f64) {
    let places: Vec<(f64, f64)> =
        panel.points.iter().map(|p| (across(p, left), height((series.value)(p), last))).collect();
    let path: Vec<String> = places.iter().map(|(x, y)| format!("{x:.1},{y:.1}")).collect();
    let colour = series.colour;
    let _ =
        writeln!(out, "<polyline points=\"{}\" fill=\"none\" stroke=\"{colour}\" stroke-width=\"2\"/>", path.join(" "));
    for (k, &place) in places.iter().enumerate() {
        mark(out, series, place);
        let scans = (series.value)(&panel.points[k]);
        label(out, series, scans, place, places.get(k + 1).copied());
    }
}

/// The number of a point: below the library's, above the model's, and left of it where the line goes up steeply.
fn label(out: &mut String, series: &Series, scans: f64, (x, y): (f64, f64), next: Option<(f64, f64)>) {
    let steep = next.is_some_and(|next| y - next.1 > next.0 - x);
    let style = format!(" fill=\"{}\" {HALO}", series.colour);
    match (series.below, steep) {
        (true, _) => text(out, (x, y + 18.0), "middle", &style, &number(scans)),
        (false, true) => text(out, (x + 3.0, y - 10.0), "end", &style, &number(scans)),
        (false, false) => text(out, (x, y - 10.0), "middle", &style, &number(scans)),
    }
}

/// A white edge, so that a number can be read across a line.
const HALO: &str = "stroke=\"#ffffff\" stroke-width=\"3\" paint-order=\"stroke\"";

fn number(scans: f64) -> String {
    if scans < 9.95 {
        format!("{scans:.1}")
    } else {
        format!("{scans:.0}")
    }
}

fn legend(out: &mut String) {
    for (k, series) in SERIES.iter().enumerate() {
        let (x, y) = (LEFT + 110.0 * k as f64, 28.0);
        let (end, colour) = (x + 26.0, series.colour);
        let _ = writeln!(out, "<path d=\"M{x:.1} {y}H{end:.1}\" stroke=\"{colour}\" stroke-width=\"2\"/>");
        mark(out, series, (x + 13.0, y));
        text(out, (end + 7.0, y + 4.5), "start", "", series.name);
    }
}

/// The picture.
pub fn svg(panels: &[Panel]) -> String {
    let mut out = format!(
        "<svg xmlns=\"http://www.w3.org/2000/svg\" width=\"{WIDTH}\" height=\"{HEIGHT}\" \
         viewBox=\"0 0 {WIDTH} {HEIGHT}\" font-family=\"Helvetica, Arial, sans-serif\" font-size=\"13\">\n\
         <title>The time of a batch by events, nodes and rows</title>\n\
         <rect width=\"{WIDTH}\" height=\"{HEIGHT}\" fill=\"#ffffff\"/>\n"
    );
    let (middle, ticks) = ((TOP + BOTTOM) / 2.0, ticks(panels));
    let turned = format!(" transform=\"rotate(-90 24 {middle})\"");
    text(&mut out, (24.0, middle), "middle", &turned, "SSE2 scans a batch (log scale)");
    legend(&mut out);
    for (k, panel) in panels.iter().enumerate() {
        let left = LEFT + STEP * k as f64;
        frame(&mut out, panel, left, &ticks);
        for series in &SERIES {
            line(&mut out, panel, series, left, *ticks.last().unwrap_or(&1.0));
        }
    }
    out + "</svg>\n"
}
