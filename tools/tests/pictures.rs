//! Pictures: every node and edge, edges between boxes, and the stored ones made anew.
mod common;

use bagwezin_tools::draw::{self, Held};
use bagwezin_tools::station::Station;
use bagwezin_tools::{batches, Network};
use common::{example, example_network, Random, EXAMPLES, N};

/// The picture of an example.
fn drawn(path: &str) -> String {
    draw::svg(&example_network(path), None)
}

/// The number that follows a mark in a text.
fn number(text: &str, mark: &str) -> f64 {
    let rest = &text[text.find(mark).unwrap() + mark.len()..];
    let end = rest.find(|c: char| !c.is_ascii_digit() && c != '.').unwrap();
    rest[..end].parse().unwrap()
}

#[test]
fn the_stored_pictures_are_made_anew() {
    for path in EXAMPLES {
        let stored = example(&format!("{path}.svg"));
        assert!(drawn(path) == stored, "examples/{path}.svg is not what draw makes");
        assert!(number(&stored, "width=\"") <= 900.0);
    }
    let net = example_network("orchard/network");
    let file = batches::assemble(&net, &example("orchard/batches.txt")).unwrap();
    let mut station = Station::open(&net).unwrap();
    station.play(&file.bytes, Some(5)).unwrap();
    let picture = draw::svg(&net, Some(&draw::state(&station)));
    assert!(picture == example("orchard/after-batch-5.svg"));
    assert!(picture.contains(">1 row, 1 gained<") && picture.contains(">0 rows, 1 lost<"));
    assert!(!picture.contains(">1 rows"));
}

#[test]
fn every_node_edge_and_watch_is_drawn() {
    let picture = draw::svg(&Network::assemble(N).unwrap(), None);
    assert_eq!(picture.matches("class=\"node\"").count(), 5);
    assert_eq!(picture.matches("class=\"edge\"").count(), 4);
    assert_eq!(picture.matches("class=\"arrow\"").count(), 4);
    assert_eq!(picture.matches(">level ").count(), 4);
    let texts = [">watched: gained and lost<", "count\u{a0}&gt;=\u{a0}8", ">block, count<"];
    assert!(texts.iter().all(|t| picture.contains(t)));
    let twice = drawn("pictures/self-join/network");
    assert_eq!(twice.matches("<title>twice to pairs</title>").count(), 2);
}

/// A node's box has these lines, from its title on.
fn has_lines(picture: &str, lines: &[&str]) {
    let texts: Vec<&str> = picture.lines().filter(|l| l.starts_with("<text ")).collect();
    let at = texts.iter().position(|l| l.contains(lines[0])).unwrap();
    assert!(texts[at..].len() >= lines.len(), "{lines:?}");
    for (text, line) in texts[at..].iter().zip(lines) {
        assert!(text.contains(line), "{text}, not {line}");
    }
}

#[test]
fn a_no_match_is_drawn_with_its_pairs() {
    let picture = drawn("orchard/no-match");
    let lines = [
        ">8 unsprayed<",
        ">block, week<",
        ">reached nomatch sprays<",
        ">on\u{a0}block\u{a0}=\u{a0}block<",
        ">and\u{a0}week\u{a0}=\u{a0}week<",
        ">watched: gained<",
    ];
    has_lines(&picture, &lines);
    for from in ["reached", "sprays"] {
        assert_eq!(picture.matches(&format!("<title>{from} to unsprayed</title>")).count(), 1);
    }
    let graph = draw::dot(&example_network("orchard/no-match"), None);
    assert!(graph.contains("n7 -> n8 ") && graph.contains("n3 -> n8 "));
    assert!(graph.contains("\\lreached nomatch sprays\\lon\u{a0}block\u{a0}=\u{a0}block\\l"));
}

#[test]
fn a_priority_is_drawn_beside_its_sign() {
    let picture = drawn("pictures/priorities/network");
    let pairs = [">on\u{a0}block\u{a0}=\u{a0}block<", ">and\u{a0}week\u{a0}=\u{a0}week<"];
    let watched = [">watched: gained and lost,<", ">priority\u{a0}9<"];
    let start = [">5 unsprayed<", ">block, week<", ">reached nomatch sprays<"];
    has_lines(&picture, &[&start[..], &pairs, &watched].concat());
    let on = ">on\u{a0}trap\u{a0}=\u{a0}trap<";
    let watched = ">watched: gained, priority\u{a0}4<";
    has_lines(&picture, &[">7 unlured<", ">trap, block<", ">standing nomatch lures<", on, watched]);
    has_lines(&picture, &[">1 lures<", ">trap, species<", ">watched: lost<"]);
    has_lines(&picture, &[">4 reached<", ">block, week<", ">columns of heavy<", ">watched: gained<"]);
    assert_eq!(picture.matches("priority").count(), 2);
    let graph = draw::dot(&example_network("pictures/priorities/network"), None);
    assert!(graph.contains("\\lwatched: gained, priority\u{a0}4\\l") && graph.contains("\\lwatched: lost\\l"));
}

/// A watch of priority 0 shows it where its record has it.
#[test]
fn a_priority_of_0_is_drawn_if_it_is_there() {
    let text = "table a x\ntable b x\nwatch a lost priority 0\nwatch b lost\n";
    let picture = draw::svg(&Network::assemble(text).unwrap(), None);
    has_lines(&picture, &[">0 a<", ">x<", ">watched: lost, priority\u{a0}0<"]);
    has_lines(&picture, &[">1 b<", ">x<", ">watched: lost<"]);
}

type Frame = (f64, f64, f64, f64);

fn frames(picture: &str) -> Vec<Frame> {
    let lines = picture.lines().filter(|l| l.contains("class=\"node\""));
    lines
        .map(|l| {
            let (x, y) = (number(l, " x=\""), number(l, " y=\""));
            (x, y, x + number(l, " width=\""), y + number(l, " height=\""))
        })
        .collect()
}

/// The points of an edge's line, with some on each of its curves.
fn points(line: &str) -> Vec<(f64, f64)> {
    let d = line.split("d=\"").nth(1).unwrap().split('"').next().unwrap();
    let spaced = d.replace('M', " M ").replace('C', " C ").replace('V', " V ");
    let words: Vec<&str> = spaced.split_whitespace().collect();
    let at = |k: usize| words[k].parse::<f64>().unwrap();
    let (mut out, mut k) = (Vec::<(f64, f64)>::new(), 0);
    while k < words.len() {
        let from = out.last().copied().unwrap_or_default();
        match words[k] {
            "M" => {
                out.push((at(k + 1), at(k + 2)));
                k += 3;
            }
            "V" => {
                let steps = 1..=20;
                out.extend(steps.map(|s| (from.0, from.1 + (at(k + 1) - from.1) * f64::from(s) / 20.0)));
                k += 2;
            }
            _ => {
                let p = [from, (at(k + 1), at(k + 2)), (at(k + 3), at(k + 4)), (at(k + 5), at(k + 6))];
                out.extend((1..=40).map(|s| curve(p, f64::from(s) / 40.0)));
                k += 7;
            }
        }
    }
    out
}

fn curve(p: [(f64, f64); 4], t: f64) -> (f64, f64) {
    let u = 1.0 - t;
    let w = [u * u * u, 3.0 * u * u * t, 3.0 * u * t * t, t * t * t];
    let sum = |f: fn((f64, f64)) -> f64| (0..4).map(|k| w[k] * f(p[k])).sum::<f64>();
    (sum(|p| p.0), sum(|p| p.1))
}

/// No edge runs behind a box, no two boxes overlap, and no picture is wider than 900.
fn sound(picture: &str, what: &str) {
    let boxes = frames(picture);
    assert!(number(picture, "width=\"") <= 900.0, "{what}");
    for (k, a) in boxes.iter().enumerate() {
        for b in &boxes[..k] {
            let beside = a.2 < b.0 || b.2 < a.0 || a.3 < b.1 || b.3 < a.1;
            assert!(beside, "{what}: boxes overlap");
        }
    }
    for line in picture.lines().filter(|l| l.contains("class=\"edge\"")) {
        for (x, y) in points(line) {
            let behind = |b: &Frame| x > b.0 + 1.0 && x < b.2 - 1.0 && y > b.1 + 1.0 && y < b.3 - 1.0;
            assert!(!boxes.iter().any(behind), "{what}: an edge runs behind a box");
        }
    }
}

#[test]
fn edges_run_between_boxes() {
    for path in EXAMPLES {
        sound(&drawn(path), path);
    }
    for seed in 0..150 {
        let mut r = Random::new(seed);
        let made = common::network(&mut r);
        let net = Network::from_bytes(&made.bytes).unwrap();
        let picture = draw::svg(&net, None);
        sound(&picture, &format!("seed {seed}"));
        assert_eq!(picture, draw::svg(&net, None));
        let mut station = Station::open(&net).unwrap();
        station.play(&common::batches(&mut r, &made), None).unwrap();
        sound(&draw::svg(&net, Some(&draw::state(&station))), &format!("seed {seed} with rows"));
    }
}

#[test]
fn rows_and_last_changes_of_areas() {
    let net = Network::assemble(N).unwrap();
    let mut words = vec![0u32; 3 * 8192 + 162];
    let head = 3 * 8192;
    (words[head + 1], words[head + 65], words[head + 97]) = (2, 1, 1);
    words[..6].copy_from_slice(&[5, 9, 0, 0, 5, 12]);
    words[8192..8194].copy_from_slice(&[5, 12]);
    words[2 * 8192..2 * 8192 + 2].copy_from_slice(&[6, 1]);
    let bytes = |words: &[u32]| -> Vec<u8> { words.iter().flat_map(|w| w.to_le_bytes()).collect() };
    let held = draw::held(&net, &bytes(&words)).unwrap();
    let rows = vec![vec![5, 9], vec![5, 12]];
    let (gained, lost) = (vec![vec![5, 12]], vec![vec![6, 1]]);
    assert_eq!(held[0], Held { rows, gained, lost });
    assert_eq!(held[4], Held::default());
    let picture = draw::svg(&net, Some(&held));
    let texts = [">2 rows, 1 gained, 1 lost<", ">+ 5 12<", ">\u{2212} 6 1<", ">\u{a0} 5 9<"];
    assert!(texts.iter().all(|t| picture.contains(t)));
    let short = draw::held(&net, &bytes(&words)[4..]).unwrap_err();
    assert!(short.starts_with("areas have 98952 bytes"));
    words[head + 1] = 65;
    assert!(draw::held(&net, &bytes(&words)).unwrap_err().contains("above 64"));
}

#[test]
fn the_graph_for_graphviz() {
    let graph = draw::dot(&Network::assemble(N).unwrap(), None);
    assert!(graph.starts_with("digraph network {\n") && graph.ends_with("}\n"));
    assert_eq!(graph.matches(" -> ").count(), 4);
    assert_eq!(graph.matches("rank=same").count(), 4);
    assert!(graph.contains("n2 -> n4 ") && graph.contains("label=\"4 advice\\lblock\\l"));
}
