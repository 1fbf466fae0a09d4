//! How the time grows: with the events of a batch, the nodes of the network, and the rows of the tables.
use crate::plot::{self, Panel, Point};
use crate::times::{self, Times};
use crate::workload::Workload;
use crate::workloads::orchard;

/// One way to grow: its name, what it counts, what stays the same, and the sizes with their places on the axis, from 0
/// to 1.
struct Family {
    name: &'static str,
    axis: &'static str,
    fixed: &'static str,
    sizes: [(usize, f64); 4],
    make: fn(String, usize) -> Workload,
}

/// The rows of a table of the orchard where they do not grow: as in the workloads w2.
const ROWS: (usize, usize) = (32, 60);

const FAMILIES: [Family; 3] = [
    Family {
        name: "events",
        axis: "events a batch (log scale)",
        fixed: "24 nodes, 32 to 60 rows a table",
        sizes: [(1, 0.0), (4, 1.0 / 3.0), (16, 2.0 / 3.0), (64, 1.0)],
        make: |name, events| orchard(name, 24, events, ROWS),
    },
    Family {
        name: "nodes",
        axis: "nodes of the network",
        fixed: "one event a batch, 32 to 60 rows a table",
        sizes: [(1, 1.0 / 32.0), (8, 0.25), (16, 0.5), (32, 1.0)],
        make: |name, nodes| orchard(name, nodes, 1, ROWS),
    },
    Family {
        name: "rows",
        axis: "rows a table",
        fixed: "24 nodes, one event a batch",
        sizes: [(0, 0.0), (16, 0.25), (32, 0.5), (64, 1.0)],
        make: |name, rows| orchard(name, 24, 1, (rows.saturating_sub(1), rows)),
    },
];

impl Family {
    fn workloads(&self) -> Vec<Workload> {
        self.sizes.map(|(size, _)| (self.make)(format!("{} {size}", self.name), size)).into()
    }

    fn panel(&self, times: &[Times]) -> Panel {
        let point = |(&(size, at), t): (&(usize, f64), &Times)| Point {
            at,
            size,
            library: t.library / t.scan,
            model: t.model / t.scan,
        };
        Panel { axis: self.axis, fixed: self.fixed, points: self.sizes.iter().zip(times).map(point).collect() }
    }
}

/// Prints the table of all sizes, writes the plot if a file is named, and gives the workloads back.
pub fn run(svg: Option<&str>) -> Result<Vec<Workload>, String> {
    let list: Vec<Workload> = FAMILIES.iter().flat_map(Family::workloads).collect();
    let times = times::table(&list)?;
    if let Some(file) = svg {
        let panels: Vec<Panel> = FAMILIES.iter().zip(times.chunks(4)).map(|(f, t)| f.panel(t)).collect();
        std::fs::write(file, plot::svg(&panels))
            .map_err(|e| format!("{file}: {e}: name a file that can be written"))?;
        println!("plot: {file}");
    }
    Ok(list)
}
