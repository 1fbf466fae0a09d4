//! Where boxes and edges go. Levels run from the top down; a level too wide for the picture is wrapped into several rows. An edge past a row gets a
//! lane between its boxes, so that no edge runs behind a box; edges of one node share their lanes.
use crate::Network;

/// The widest picture, and the room beside the boxes: for the levels' names on the left.
const WIDE: f64 = 900.0;
const LEFT: f64 = 62.0;
const RIGHT: f64 = 14.0;
const TOP: f64 = 16.0;

/// Room between boxes of a row, and beside a lane.
const GAP: f64 = 26.0;
const LANE: f64 = 12.0;

/// Room between two rows: at least, for each sloping edge, and at most.
const CHANNEL: (f64, f64, f64) = (36.0, 4.0, 84.0);

/// How far a link may go aside for the price of one crossing.
const SLOPE: f64 = 400.0;

/// How often rows are ordered, from how many starts, how often they are moved, and how often lanes are straightened.
const SWEEPS: usize = 16;
const STARTS: u64 = 24;
const MOVES: usize = 300;
const PASSES: usize = 6;

#[derive(Clone, Copy, Debug, Default, PartialEq)]
pub struct Size {
    pub wide: f64,
    pub high: f64,
}

/// A row that an edge reaches: where, from the row's top to where it leaves it.
#[derive(Clone, Copy, Debug, PartialEq)]
pub struct Step {
    pub x: f64,
    pub top: f64,
    pub bottom: f64,
}

/// An edge: it leaves a box (its first step), passes rows in lanes, and ends at a box's top.
#[derive(Clone, Debug, PartialEq)]
pub struct Edge {
    pub from: usize,
    pub to: usize,
    pub steps: Vec<Step>,
}

/// The picture: each box's left and top, the edges, each level's top and bottom, and the size.
#[derive(Clone, Debug, Default, PartialEq)]
pub struct Placed {
    pub boxes: Vec<(f64, f64)>,
    pub edges: Vec<Edge>,
    pub levels: Vec<(f64, f64)>,
    pub size: Size,
}

/// A box, or a lane of the edges of a node.
#[derive(Clone, Copy, Debug, PartialEq, Eq)]
struct Item {
    node: usize,
    lane: bool,
    row: usize,
}

/// Items in rows, and links between items of neighbouring rows.
struct Graph {
    items: Vec<Item>,
    links: Vec<(usize, usize)>,
    /// Each item's links: the other ends above, and below.
    near: Vec<[Vec<usize>; 2]>,
    /// The items that each edge passes, from its node on.
    routes: Vec<Vec<usize>>,
    rows: Vec<Vec<usize>>,
    wide: Vec<f64>,
}

/// The layout of a network whose boxes have given sizes.
pub fn layout(net: &Network, sizes: &[Size]) -> Placed {
    let levels = net.nodes.iter().map(|n| n.level).max().unwrap_or(0) + 1;
    let mut splits = vec![1; levels];
    let (mut graph, mut of_level) = Graph::new(net, sizes, &splits);
    while let Some(level) = (0..levels).find(|&l| graph.too_wide(&of_level[l]) && splits[l] < 32) {
        splits[level] += 1;
        (graph, of_level) = Graph::new(net, sizes, &splits);
    }
    graph.order();
    let x = graph.centres();
    graph.placed(sizes, &x, &of_level)
}

impl Graph {
    /// Items and links, each level in its number of rows; and the rows of each level.
    fn new(net: &Network, sizes: &[Size], splits: &[usize]) -> (Graph, Vec<Vec<usize>>) {
        let mut row_of = vec![0; net.nodes.len()];
        let (mut of_level, mut row) = (Vec::new(), 0);
        for (level, &split) in splits.iter().enumerate() {
            let here: Vec<usize> = (0..net.nodes.len()).filter(|&i| net.nodes[i].level == level).collect();
            let start = row;
            for chunk in here.chunks(here.len().div_ceil(split)) {
                chunk.iter().for_each(|&i| row_of[i] = row);
                row += 1;
            }
            of_level.push((start..row).collect());
        }
        let box_of = |node: usize| Item { node, lane: false, row: row_of[node] };
        let mut graph = Graph {
            items: (0..net.nodes.len()).map(box_of).collect(),
            links: Vec::new(),
            near: Vec::new(),
            routes: Vec::new(),
            rows: vec![Vec::new(); row],
            wide: sizes.iter().map(|s| s.wide).collect(),
        };
        for (to, node) in net.nodes.iter().enumerate() {
            for from in node.op.inputs() {
                graph.route(from, to);
            }
        }
        for (id, item) in graph.items.iter().enumerate() {
            graph.rows[item.row].push(id);
        }
        graph.near = vec![Default::default(); graph.items.len()];
        for &(a, b) in &graph.links {
            graph.near[b][0].push(a);
            graph.near[a][1].push(b);
        }
        (graph, of_level)
    }

    /// An edge from a box to a box in a later row.
    fn route(&mut self, from: usize, to: usize) {
        let mut route = vec![from];
        for row in self.items[from].row + 1..self.items[to].row {
            let lane = Item { node: from, lane: true, row };
            let before = route[route.len() - 1];
            let id = match self.items.iter().position(|i| *i == lane) {
                Some(id) => id,
                None => {
                    self.items.push(lane);
                    self.wide.push(0.0);
                    self.links.push((before, self.items.len() - 1));
                    self.items.len() - 1
                }
            };
            route.push(id);
        }
        self.links.push((route[route.len() - 1], to));
        route.push(to);
        self.routes.push(route);
    }

    /// The least distance of the centres of two neighbours in a row.
    fn apart(&self, a: usize, b: usize) -> f64 {
        let gap = match (self.items[a].lane, self.items[b].lane) {
            (false, false) => GAP,
            (true, true) => LANE,
            _ => 1.3 * LANE,
        };
        (self.wide[a] + self.wide[b]) / 2.0 + gap
    }

    fn row_width(&self, row: &[usize]) -> f64 {
        let ends = match row {
            [] => 0.0,
            [a, .., b] => (self.wide[*a] + self.wide[*b]) / 2.0,
            [a] => self.wide[*a],
        };
        ends + row.windows(2).map(|w| self.apart(w[0], w[1])).sum::<f64>()
    }

    /// Whether a row of a level with more than one box does not fit the picture.
    fn too_wide(&self, rows: &[usize]) -> bool {
        rows.iter().any(|&r| {
            let row = &self.rows[r];
            let boxes: Vec<usize> = row.iter().copied().filter(|&i| !self.items[i].lane).collect();
            let lanes = (row.len() - boxes.len()) as f64;
            let wide = self.row_width(&boxes) + lanes * 2.0 * LANE;
            boxes.len() > 1 && wide > WIDE - LEFT - RIGHT
        })
    }

    /// Orders every row so that few links cross and links are short.
    fn order(&mut self) {
        let first = self.rows.clone();
        let mut best = (self.cost(), first.clone());
        for start in 0..STARTS {
            self.rows = first.clone();
            let mut seed = start;
            if start > 0 {
                self.rows.iter_mut().for_each(|row| shuffle(row, &mut seed));
            }
            for sweep in 0..SWEEPS {
                self.sweep(sweep % 2 == 0);
                self.swap_neighbours();
                let cost = self.cost();
                if cost < best.0 - 1e-6 {
                    best = (cost, self.rows.clone());
                }
            }
        }
        self.rows = best.1;
    }

    /// Where each item stands in its row: the middle of its place if the row is packed around 0.
    fn packed(&self) -> Vec<f64> {
        let mut at = vec![0.0; self.items.len()];
        for row in &self.rows {
            let mut x = -self.row_width(row) / 2.0;
            for (k, &id) in row.iter().enumerate() {
                x += match k {
                    0 => self.wide[id] / 2.0,
                    _ => self.apart(row[k - 1], id),
                };
                at[id] = x;
            }
        }
        at
    }

    /// Sorts each row by the mean place of its neighbours above (or below).
    fn sweep(&mut self, down: bool) {
        let count = self.rows.len();
        let side = usize::from(!down);
        for k in 1..count {
            let r = if down { k } else { count - 1 - k };
            let at = self.packed();
            let mean = |id: usize| match &self.near[id][side][..] {
                [] => at[id],
                near => near.iter().map(|&i| at[i]).sum::<f64>() / near.len() as f64,
            };
            let mut row: Vec<(f64, usize)> = self.rows[r].iter().map(|&i| (mean(i), i)).collect();
            row.sort_by(|a, b| a.0.total_cmp(&b.0));
            self.rows[r] = row.into_iter().map(|x| x.1).collect();
        }
    }

    /// Swaps neighbours in a row where that makes the picture better.
    fn swap_neighbours(&mut self) {
        let mut at = self.packed();
        for r in 0..self.rows.len() {
            for k in 1..self.rows[r].len() {
                let (a, b) = (self.rows[r][k - 1], self.rows[r][k]);
                let (left, right) = (at[a] - self.wide[a] / 2.0, at[b] + self.wide[b] / 2.0);
                let (x, y) = (right - self.wide[a] / 2.0, left + self.wide[b] / 2.0);
                let now = self.cost_of(&at, (a, at[a]), (b, at[b]));
                if self.cost_of(&at, (b, y), (a, x)) < now - 1e-6 {
                    (at[a], at[b]) = (x, y);
                    self.rows[r].swap(k - 1, k);
                }
            }
        }
    }

    /// The cost of the links of two neighbours in a row, one left of the other, at given places.
    fn cost_of(&self, at: &[f64], (a, x): (usize, f64), (b, y): (usize, f64)) -> f64 {
        let mut cost = 0.0;
        for side in 0..2 {
            let (of_a, of_b) = (&self.near[a][side], &self.near[b][side]);
            let slopes = of_a.iter().map(|&i| (at[i] - x).abs());
            cost += slopes.sum::<f64>() / SLOPE;
            cost += of_b.iter().map(|&i| (at[i] - y).abs()).sum::<f64>() / SLOPE;
            let crossed = |i: usize| of_b.iter().filter(|&&j| at[i] > at[j]).count();
            cost += of_a.iter().map(|&i| crossed(i)).sum::<usize>() as f64;
        }
        cost
    }

    /// Crossings, and a little for the links' slopes.
    fn cost(&self) -> f64 {
        let at = self.packed();
        let mut cost = 0.0;
        for (k, &(a, b)) in self.links.iter().enumerate() {
            cost += (at[a] - at[b]).abs() / SLOPE;
            for &(c, d) in &self.links[..k] {
                let level = self.items[a].row == self.items[c].row;
                let cross = (at[a] < at[c] && at[b] > at[d]) || (at[a] > at[c] && at[b] < at[d]);
                cost += f64::from(u8::from(level && cross));
            }
        }
        cost
    }

    /// The centres of all items: near those of their neighbours, in order, inside the picture.
    fn centres(&self) -> Vec<f64> {
        let mut x = self.packed();
        let middle = (LEFT + WIDE - RIGHT) / 2.0;
        x.iter_mut().for_each(|v| *v += middle);
        for turn in 0..MOVES {
            let count = self.rows.len();
            for k in 0..count {
                let r = if turn % 2 == 0 { k } else { count - 1 - k };
                let wanted: Vec<(f64, f64)> = self.rows[r].iter().map(|&i| self.wanted(i, &x)).collect();
                let moved = self.moved(&self.rows[r], &wanted);
                for (&id, v) in self.rows[r].iter().zip(moved) {
                    x[id] = v;
                }
            }
        }
        for node in (0..PASSES).flat_map(|_| 0..self.items.len()) {
            self.straighten(&mut x, node);
        }
        let low = (0..x.len()).map(|i| x[i] - self.wide[i] / 2.0);
        let shift = low.fold(f64::MAX, f64::min) - LEFT;
        x.iter().map(|v| v - shift).collect()
    }

    /// Makes the lanes of a node straight as far as their neighbours leave room: few bends.
    fn straighten(&self, x: &mut [f64], node: usize) {
        let lanes = (0..x.len()).filter(|&i| self.items[i].lane && self.items[i].node == node);
        let mut lanes: Vec<usize> = lanes.collect();
        lanes.sort_by_key(|&i| self.items[i].row);
        while !lanes.is_empty() {
            let (mut low, mut high, mut count) = (f64::MIN, f64::MAX, 0);
            for &lane in &lanes {
                let room = self.room(x, lane);
                if low.max(room.0) > high.min(room.1) {
                    break;
                }
                (low, high, count) = (low.max(room.0), high.min(room.1), count + 1);
            }
            let run: Vec<usize> = lanes.drain(..count.max(1)).collect();
            if count > 1 {
                let mean = run.iter().map(|&i| x[i]).sum::<f64>() / count as f64;
                run.iter().for_each(|&i| x[i] = mean.max(low).min(high));
            }
        }
    }

    /// Where an item can be without moving its neighbours in the row.
    fn room(&self, x: &[f64], id: usize) -> (f64, f64) {
        let row = &self.rows[self.items[id].row];
        let k = row.iter().position(|&i| i == id).unwrap_or(0);
        let low = match k {
            0 => LEFT,
            _ => x[row[k - 1]] + self.apart(row[k - 1], id),
        };
        let high = row.get(k + 1).map_or(WIDE - RIGHT, |&next| x[next] - self.apart(id, next));
        (low, high)
    }

    /// Where an item wants to be, and how much: lanes want to be straight.
    fn wanted(&self, id: usize, x: &[f64]) -> (f64, f64) {
        let (mut sum, mut weight) = (0.02 * x[id], 0.02);
        for &other in self.near[id].iter().flatten() {
            let lane = |i: usize| usize::from(self.items[i].lane);
            let w = [1.0, 3.0, 30.0][lane(id) + lane(other)];
            sum += w * x[other];
            weight += w;
        }
        (sum / weight, weight)
    }

    /// The places nearest to the wanted ones that keep a row's order and distances.
    fn moved(&self, row: &[usize], wanted: &[(f64, f64)]) -> Vec<f64> {
        let mut before = vec![0.0; row.len()];
        for k in 1..row.len() {
            before[k] = before[k - 1] + self.apart(row[k - 1], row[k]);
        }
        // blocks of items that move together: mean place, weight, how many
        let mut blocks: Vec<(f64, f64, usize)> = Vec::new();
        for (k, &(want, weight)) in wanted.iter().enumerate() {
            let mut block = (want - before[k], weight, 1);
            while let Some(&(place, w, n)) = blocks.last().filter(|b| b.0 > block.0) {
                blocks.pop();
                let both = w + block.1;
                block = ((place * w + block.0 * block.1) / both, both, n + block.2);
            }
            blocks.push(block);
        }
        let low = LEFT + self.wide[row[0]] / 2.0;
        let last = row[row.len() - 1];
        let high = WIDE - RIGHT - self.wide[last] / 2.0 - before[row.len() - 1];
        let places = blocks.iter().flat_map(|&(place, _, n)| std::iter::repeat_n(place, n));
        let inside = places.map(|p| p.min(high).max(low));
        inside.zip(&before).map(|(p, b)| p + b).collect()
    }

    /// Tops and heights of the rows, boxes and edges.
    fn placed(&self, sizes: &[Size], x: &[f64], of_level: &[Vec<usize>]) -> Placed {
        let (mut rows, mut y) = (Vec::new(), TOP);
        for (r, row) in self.rows.iter().enumerate() {
            let boxes = row.iter().filter(|&&i| !self.items[i].lane);
            let high = boxes.map(|&i| sizes[i].high).fold(0.0, f64::max);
            rows.push((y, y + high));
            y += high + self.channel(r, x);
        }
        let bottom = rows.last().map_or(0.0, |r| r.1);
        let ends = (0..sizes.len()).map(|i| x[i] + sizes[i].wide / 2.0);
        let lanes = x[sizes.len()..].iter().copied();
        let wide = ends.chain(lanes).fold(0.0, f64::max) + RIGHT;
        Placed {
            boxes: (0..sizes.len()).map(|i| (x[i] - sizes[i].wide / 2.0, rows[self.items[i].row].0)).collect(),
            edges: self.edges(sizes, x, &rows),
            levels: of_level.iter().map(|l| (rows[l[0]].0, rows[l[l.len() - 1]].1)).collect(),
            size: Size { wide, high: bottom + TOP },
        }
    }

    /// The room below a row: more where more links slope.
    fn channel(&self, row: usize, x: &[f64]) -> f64 {
        let here = self.links.iter().filter(|l| self.items[l.0].row == row);
        let slopes = here.filter(|l| (x[l.0] - x[l.1]).abs() > 40.0).count();
        let (least, each, most) = CHANNEL;
        (least + each * slopes as f64).min(most)
    }

    fn edges(&self, sizes: &[Size], x: &[f64], rows: &[(f64, f64)]) -> Vec<Edge> {
        let mut out = Vec::new();
        for (k, route) in self.routes.iter().enumerate() {
            let mut steps = Vec::new();
            for (at, &id) in route.iter().enumerate() {
                let (top, bottom) = rows[self.items[id].row];
                steps.push(match at {
                    0 => Step { x: x[id] + self.port(x, k, false), top: top + sizes[id].high, bottom },
                    _ if at == route.len() - 1 => Step { x: x[id] + self.port(x, k, true), top, bottom: top },
                    _ => Step { x: x[id], top, bottom },
                });
            }
            out.push(Edge { from: route[0], to: route[route.len() - 1], steps });
        }
        out
    }

    /// How far from the middle of its box an edge ends (or begins): edges stand in the order of where they come from (or go).
    fn port(&self, x: &[f64], edge: usize, ends: bool) -> f64 {
        let own = |route: &Vec<usize>| match ends {
            true => (route[route.len() - 1], route[route.len() - 2]),
            false => (route[0], route[1]),
        };
        let (id, other) = own(&self.routes[edge]);
        let mut beside: Vec<(usize, usize)> = Vec::new();
        for (k, route) in self.routes.iter().enumerate() {
            let (i, o) = own(route);
            let shared = !ends && self.items[o].lane && beside.iter().any(|b| b.0 == o);
            if i == id && !shared {
                beside.push((o, k));
            }
        }
        beside.sort_by(|a, b| x[a.0].total_cmp(&x[b.0]).then(a.1.cmp(&b.1)));
        let lane = !ends && self.items[other].lane;
        let mine = |b: &(usize, usize)| b.0 == other && (lane || b.1 == edge);
        let k = beside.iter().position(mine).unwrap_or(0) as f64;
        let count = beside.len() as f64;
        let step = (self.wide[id] / (count + 1.0)).min(28.0);
        (k - (count - 1.0) / 2.0) * step
    }
}

/// A fixed order out of a seed.
fn shuffle(row: &mut [usize], seed: &mut u64) {
    for k in (1..row.len()).rev() {
        *seed = seed.wrapping_mul(6364136223846793005).wrapping_add(1442695040888963407);
        row.swap(k, (*seed >> 33) as usize % (k + 1));
    }
}
