//! A network as a graph for Graphviz.
use std::io::{ErrorKind, Write};
use std::path::Path;
use std::process::{Command, Stdio};

use super::{colours, lines, sort, Held, EDGES};
use crate::Network;

fn escaped(text: &str) -> String {
    text.replace('\\', "\\\\").replace('"', "\\\"")
}

/// The graph in DOT: levels are ranks, edges go from inputs to users.
pub fn dot(net: &Network, state: Option<&[Held]>) -> String {
    let mut out = String::from(
        "digraph network {\n  graph [bgcolor=white, ranksep=0.5]\n  node [shape=box, style=\"rounded,filled\", fontname=\"Helvetica\", fontsize=11]\n",
    );
    for i in 0..net.nodes.len() {
        let held = state.and_then(|s| s.get(i));
        let texts = lines(net, i, held);
        let label: Vec<String> = texts.iter().map(|l| escaped(&l.0)).collect();
        let (fill, edge) = colours(sort(net, i));
        out += &format!("  n{i} [label=\"{}\\l\", fillcolor=\"{fill}\", color=\"{edge}\"]\n", label.join("\\l"));
    }
    let levels = net.nodes.iter().map(|n| n.level).max().unwrap_or(0);
    for level in 0..=levels {
        let here = (0..net.nodes.len()).filter(|&i| net.nodes[i].level == level);
        let names: Vec<String> = here.map(|i| format!("n{i}")).collect();
        out += &format!("  {{ rank=same; {} }}\n", names.join("; "));
    }
    for (i, node) in net.nodes.iter().enumerate() {
        for j in node.op.inputs() {
            let colour = EDGES[j % EDGES.len()];
            out += &format!("  n{j} -> n{i} [color=\"{colour}\"]\n");
        }
    }
    out + "}\n"
}

/// Has Graphviz draw a graph; false if it is not installed.
pub fn graphviz(graph: &str, out: &Path) -> Result<bool, String> {
    let started = Command::new("dot").arg("-Tsvg").arg("-o").arg(out).stdin(Stdio::piped()).spawn();
    let mut child = match started {
        Ok(child) => child,
        Err(e) if e.kind() == ErrorKind::NotFound => return Ok(false),
        Err(e) => return Err(format!("dot: {e}")),
    };
    let sent = match child.stdin.take() {
        Some(mut pipe) => pipe.write_all(graph.as_bytes()),
        None => Ok(()),
    };
    let status = child.wait().map_err(|e| format!("dot: {e}"))?;
    sent.map_err(|e| format!("dot: {e}"))?;
    match status.success() {
        true => Ok(true),
        false => Err(format!("dot: {status}")),
    }
}
