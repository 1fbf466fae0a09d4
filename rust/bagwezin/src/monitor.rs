use std::fmt;

use crate::{outcome, raw, Refusal, ANSWER, AREA, FIELDS, HEAD, NODES, PENDING, PENDING_COUNTS, REPORT};

/// Words of the head, as in `include/bagwezin.h`.
const NUMBER: usize = 0;
const ROW_COUNTS: usize = 1;
const STAMPS: usize = 33;
const GAINED_COUNTS: usize = 65;
const LOST_COUNTS: usize = 97;
const WORKED: usize = 129;

/// The refusal of a taking with nothing pending.
const NOTHING_PENDING: u32 = 18;

/// A node of a network, as the reader answers it.
#[derive(Clone, Copy, Debug, PartialEq, Eq, Hash)]
pub struct NodeShape {
    /// 1 table, 2 and 3 select, 4 project, 5 join, 6 union, 7 left without right, 8 intersection, 10 no match.
    pub kind: u32,
    /// Fields of a row: 1 to 4.
    pub width: u32,
    /// 0 for a table, else 1 more than the highest level among its inputs.
    pub level: u32,
}

/// Reads a network: its nodes in number order, or refusals 2 to 7.
///
/// ```
/// // a table of width 2, and its rows whose field 1 is at least 8
/// let network = [6, 0, 1, 0, 2, 0, 14, 0, 2, 0, 0, 0, 1, 0, 5, 0, 8, 0, 0, 0];
/// let nodes = bagwezin::read(&network)?;
/// assert_eq!(nodes.len(), 2);
/// assert_eq!((nodes[1].kind, nodes[1].width, nodes[1].level), (2, 2, 1));
/// assert_eq!(bagwezin::read(&[]).unwrap_err().number, 2);
/// # Ok::<(), bagwezin::Refusal>(())
/// ```
pub fn read(network: &[u8]) -> Result<Vec<NodeShape>, Refusal> {
    let mut answer = [0; ANSWER];
    outcome(raw::read(network, &mut answer))?;
    let shape =
        |i: usize| NodeShape { kind: answer[1 + i], width: answer[1 + NODES + i], level: answer[1 + 2 * NODES + i] };
    Ok((0..answer[0] as usize).map(shape).collect())
}

/// An alert that was taken: a pending row, and its node.
#[derive(Clone, Debug, PartialEq, Eq, Hash)]
pub struct Alert {
    pub node: usize,
    pub row: Vec<u32>,
}

/// A network with its areas, and the alerts that wait for the adviser. Nodes are numbered from 0, by `usize`.
///
/// ```
/// # let network = &[
/// #     6, 0, 1, 0, 2, 0, 14, 0, 2, 0, 0, 0, 1, 0, 5, 0, 8, 0, 0, 0, 10, 0, 4, 0, 1, 0, 1, 0, 0, 0,
/// #     6, 0, 1, 0, 1, 0, 8, 0, 7, 0, 2, 0, 3, 0, 8, 0, 9, 0, 4, 0, 3, 0,
/// # ];
/// let mut monitor = bagwezin::Monitor::open(network)?;
/// // put (5, 9) in table 0
/// let number = monitor.apply(&[14, 0, 32, 0, 0, 0, 5, 0, 0, 0, 9, 0, 0, 0])?;
/// assert_eq!(number, 1);
/// assert_eq!(monitor.gained(4).collect::<Vec<_>>(), [[5]]);
/// assert_eq!(monitor.worked().collect::<Vec<_>>(), [1, 2, 4]);
/// assert_eq!(monitor.report(4)?, [10, 0, 64, 0, 4, 0, 5, 0, 0, 0]);
/// assert!(monitor.check()?);
/// # Ok::<(), bagwezin::Refusal>(())
/// ```
#[derive(Clone, PartialEq, Eq)]
pub struct Monitor {
    network: Vec<u8>,
    nodes: Vec<NodeShape>,
    words: Words,
    pending: Vec<u32>,
}

/// The named words of the four areas.
#[derive(Clone, PartialEq, Eq)]
struct Words {
    rows: Vec<u32>,
    gained: Vec<u32>,
    lost: Vec<u32>,
    head: Vec<u32>,
}

impl Words {
    fn lent(&mut self) -> raw::Areas<'_> {
        raw::Areas { rows: &mut self.rows, gained: &mut self.gained, lost: &mut self.lost, head: &mut self.head }
    }
}

/// A monitor on stored words, and whether they were coherent.
#[derive(Clone, Debug, PartialEq, Eq)]
pub struct Resumed {
    pub monitor: Monitor,
    pub coherent: bool,
}

impl Monitor {
    /// Opens areas for a network: refusals 2 to 7. Nothing is pending.
    pub fn open(network: &[u8]) -> Result<Monitor, Refusal> {
        let mut words = Words { rows: vec![0; AREA], gained: vec![0; AREA], lost: vec![0; AREA], head: vec![0; HEAD] };
        outcome(raw::open(network, &mut words.lent()))?;
        Ok(Monitor { network: network.to_vec(), nodes: read(network)?, words, pending: vec![0; PENDING] })
    }

    /// Goes on from stored words, as [`Monitor::areas`] gave them: refusals 1 to 8, or a monitor and whether the areas are coherent. Words past the
    /// named ones are left. Nothing is pending: [`Monitor::set_pending`] goes on from a stored pending area.
    ///
    /// Of a batch on areas that are not coherent the rules settle little: open a new monitor, and put its tables' rows again.
    ///
    /// ```
    /// use bagwezin::{Monitor, Resumed};
    /// # let network = &[
    /// #     6, 0, 1, 0, 2, 0, 14, 0, 2, 0, 0, 0, 1, 0, 5, 0, 8, 0, 0, 0, 10, 0, 4, 0, 1, 0, 1, 0, 0, 0,
    /// #     6, 0, 1, 0, 1, 0, 8, 0, 7, 0, 2, 0, 3, 0, 8, 0, 9, 0, 4, 0, 3, 0,
    /// # ];
    /// let mut monitor = Monitor::open(network)?;
    /// monitor.apply(&[14, 0, 32, 0, 0, 0, 5, 0, 0, 0, 9, 0, 0, 0])?;
    /// let [rows, gained, lost, head] = monitor.areas().map(<[u32]>::to_vec);
    /// // and after the station was switched on again
    /// let Resumed { monitor: again, coherent } = Monitor::from_areas(network, &rows, &gained, &lost, &head)?;
    /// assert!(coherent);
    /// assert_eq!(again, monitor);
    /// assert_eq!(Monitor::from_areas(network, &rows[1..], &gained, &lost, &head).unwrap_err().number, 1);
    /// # Ok::<(), bagwezin::Refusal>(())
    /// ```
    pub fn from_areas(
        network: &[u8],
        rows: &[u32],
        gained: &[u32],
        lost: &[u32],
        head: &[u32],
    ) -> Result<Resumed, Refusal> {
        let coherent = outcome(raw::check(network, rows, gained, lost, head))? == 1;
        let words = Words {
            rows: rows[..AREA].to_vec(),
            gained: gained[..AREA].to_vec(),
            lost: lost[..AREA].to_vec(),
            head: head[..HEAD].to_vec(),
        };
        let monitor = Monitor { network: network.to_vec(), nodes: read(network)?, words, pending: vec![0; PENDING] };
        Ok(Resumed { monitor, coherent })
    }

    /// Applies a batch: refusals 9 to 14, or the new batch number. A refusal changes nothing. If alerts are wanted, [`Monitor::fold`] follows each
    /// accepted batch.
    pub fn apply(&mut self, batch: &[u8]) -> Result<u32, Refusal> {
        outcome(raw::apply(&self.network, batch, &mut self.words.lent()))?;
        Ok(self.number())
    }

    /// Folds the last batch's changes into the pending rows: at each node watched with sign 1 or 3 the lost rows go out, then the gained ones come
    /// in. Refusal 17, which changes nothing, if that would leave a node with more than 64 of them.
    ///
    /// Call it once after each accepted [`Monitor::apply`], before any [`Monitor::take`] and before the next `apply`, and never after a refused one.
    /// From [`Monitor::open`] on, a row of such a node is then pending exactly if it was gained since opening and neither lost nor taken since, and
    /// folding is never refused. It cannot tell whether there was a new batch: folding twice folds twice.
    ///
    /// ```
    /// use bagwezin::Alert;
    /// let network = [
    ///     6, 0, 1, 0, 1, 0,               // node 0: table of width 1 (block with a catch)
    ///     6, 0, 1, 0, 1, 0,               // node 1: table of width 1 (trap that is silent)
    ///     8, 0, 9, 0, 0, 0, 3, 0,         // watch on 0, gained and lost; its priority is 0
    ///     10, 0, 9, 0, 1, 0, 1, 0, 5, 0,  // watch on 1, gained, of priority 5
    /// ];
    /// let mut monitor = bagwezin::Monitor::open(&network)?;
    /// // put (7) in table 0 and (3) in table 1
    /// monitor.apply(&[10, 0, 32, 0, 0, 0, 7, 0, 0, 0, 10, 0, 32, 0, 1, 0, 3, 0, 0, 0])?;
    /// monitor.fold()?;
    /// assert_eq!(monitor.pending(0).collect::<Vec<_>>(), [[7]]);
    /// assert_eq!(monitor.take()?, Some(Alert { node: 1, row: vec![3] }));
    /// // (7) is lost before the adviser saw it
    /// monitor.apply(&[10, 0, 33, 0, 0, 0, 7, 0, 0, 0])?;
    /// monitor.fold()?;
    /// assert_eq!(monitor.take()?, None);
    /// # Ok::<(), bagwezin::Refusal>(())
    /// ```
    pub fn fold(&mut self) -> Result<(), Refusal> {
        let Words { rows, gained, lost, head } = &self.words;
        outcome(raw::fold(&self.network, rows, gained, lost, head, &mut self.pending)).map(drop)
    }

    /// Takes the next alert: of the nodes with pending rows one of the highest priority, of these the lowest, and its lowest row, which is pending no
    /// longer. `None` if nothing is pending (refusal 18). [`Monitor::fold`] comes between a batch and a taking.
    pub fn take(&mut self) -> Result<Option<Alert>, Refusal> {
        let mut row = vec![0; FIELDS];
        let Words { rows, gained, lost, head } = &self.words;
        match outcome(raw::take(&self.network, rows, gained, lost, head, &mut self.pending, &mut row)) {
            Ok(node) => {
                let node = node as usize;
                row.truncate(self.nodes[node].width as usize);
                Ok(Some(Alert { node, row }))
            }
            Err(refusal) if refusal.number == NOTHING_PENDING => Ok(None),
            Err(refusal) => Err(refusal),
        }
    }

    /// Goes on from a stored pending area, as [`Monitor::pending_area`] gave it: refusal 17, which changes nothing, if it is too short or not of good
    /// form for this network. Words past the named ones are left.
    ///
    /// ```
    /// use bagwezin::{Alert, Monitor};
    /// let network = [6, 0, 1, 0, 1, 0, 8, 0, 9, 0, 0, 0, 1, 0]; // a table of width 1, and a watch on it, gained
    /// let mut monitor = Monitor::open(&network)?;
    /// monitor.apply(&[10, 0, 32, 0, 0, 0, 7, 0, 0, 0])?;
    /// monitor.fold()?;
    /// let [rows, gained, lost, head] = monitor.areas().map(<[u32]>::to_vec);
    /// let pending = monitor.pending_area().to_vec();
    /// // and after the station was switched on again
    /// let mut again = Monitor::from_areas(&network, &rows, &gained, &lost, &head)?.monitor;
    /// again.set_pending(&pending)?;
    /// assert_eq!(again, monitor);
    /// assert_eq!(again.take()?, Some(Alert { node: 0, row: vec![7] }));
    /// assert_eq!(again.set_pending(&pending[1..]).unwrap_err().number, 17);
    /// # Ok::<(), bagwezin::Refusal>(())
    /// ```
    pub fn set_pending(&mut self, words: &[u32]) -> Result<(), Refusal> {
        let mut tried = words.to_vec();
        let [rows, gained, lost, head] = self.areas();
        match outcome(raw::take(&self.network, rows, gained, lost, head, &mut tried, &mut [0; FIELDS])) {
            Err(refusal) if refusal.number != NOTHING_PENDING => Err(refusal),
            _ => {
                self.pending.copy_from_slice(&words[..PENDING]);
                Ok(())
            }
        }
    }

    /// Whether the areas are coherent; after `open` and any batches they are.
    pub fn check(&self) -> Result<bool, Refusal> {
        let [rows, gained, lost, head] = self.areas();
        outcome(raw::check(&self.network, rows, gained, lost, head)).map(|yes| yes == 1)
    }

    /// The report of a watched node in records of kind 64 (gained) and 65 (lost): refusal 15.
    pub fn report(&self, node: usize) -> Result<Vec<u8>, Refusal> {
        let mut out = vec![0; REPORT];
        let node = u32::try_from(node).unwrap_or(u32::MAX);
        let [rows, gained, lost, head] = self.areas();
        let answer = raw::report(&self.network, node, rows, gained, lost, head, &mut out);
        out.truncate(outcome(answer)? as usize);
        Ok(out)
    }

    /// The network's bytes.
    pub fn network(&self) -> &[u8] {
        &self.network
    }

    /// How many nodes the network has.
    pub fn nodes(&self) -> usize {
        self.nodes.len()
    }

    /// Kind, width and level of a node.
    pub fn node(&self, node: usize) -> Option<NodeShape> {
        self.nodes.get(node).copied()
    }

    /// The batch number.
    pub fn number(&self) -> u32 {
        self.words.head[NUMBER]
    }

    /// The number of the last batch that changed a node's rows; 0 if none did, or there is no such node.
    pub fn stamp(&self, node: usize) -> u32 {
        if node < self.nodes() {
            self.words.head[STAMPS + node]
        } else {
            0
        }
    }

    /// The nodes that the last batch worked on, by level, then number.
    pub fn worked(&self) -> impl ExactSizeIterator<Item = usize> + '_ {
        let count = self.words.head[WORKED] as usize;
        self.words.head[WORKED + 1..][..count].iter().map(|&node| node as usize)
    }

    /// A node's rows, ascending; none if there is no such node.
    pub fn rows(&self, node: usize) -> impl ExactSizeIterator<Item = &[u32]> {
        self.place(&self.words.rows, &self.words.head[ROW_COUNTS..], node)
    }

    /// The rows that a node gained in the last batch, ascending.
    pub fn gained(&self, node: usize) -> impl ExactSizeIterator<Item = &[u32]> {
        self.place(&self.words.gained, &self.words.head[GAINED_COUNTS..], node)
    }

    /// The rows that a node lost in the last batch, ascending.
    pub fn lost(&self, node: usize) -> impl ExactSizeIterator<Item = &[u32]> {
        self.place(&self.words.lost, &self.words.head[LOST_COUNTS..], node)
    }

    /// A node's pending rows, ascending; none if it is not watched with sign 1 or 3.
    pub fn pending(&self, node: usize) -> impl ExactSizeIterator<Item = &[u32]> {
        self.place(&self.pending, &self.pending[PENDING_COUNTS..], node)
    }

    /// The pending area's named words, as [`Monitor::set_pending`] takes them.
    pub fn pending_area(&self) -> &[u32] {
        &self.pending
    }

    /// The areas' named words: rows, gained, lost and head, as [`Monitor::from_areas`] takes them.
    pub fn areas(&self) -> [&[u32]; 4] {
        [&self.words.rows, &self.words.gained, &self.words.lost, &self.words.head]
    }

    /// The areas' named words, one after the other.
    pub fn words(&self) -> impl Iterator<Item = &u32> {
        self.areas().into_iter().flatten()
    }

    fn place<'a>(
        &'a self,
        area: &'a [u32],
        counts: &[u32],
        node: usize,
    ) -> impl ExactSizeIterator<Item = &'a [u32]> + 'a {
        let (count, width) = match self.nodes.get(node) {
            Some(shape) => (counts[node] as usize, shape.width as usize),
            None => (0, 0),
        };
        (0..count).map(move |j| &area[256 * node + 4 * j..][..width])
    }
}

/// The batch number, the worked list, and of each node its shape, its stamp and how many rows it has, gained and lost, and how many are pending.
impl fmt::Debug for Monitor {
    fn fmt(&self, f: &mut fmt::Formatter) -> fmt::Result {
        struct Node<'a>(&'a Monitor, usize);
        impl fmt::Debug for Node<'_> {
            fn fmt(&self, f: &mut fmt::Formatter) -> fmt::Result {
                let Node(monitor, node) = *self;
                f.debug_struct("Node")
                    .field("shape", &monitor.nodes[node])
                    .field("stamp", &monitor.stamp(node))
                    .field("rows", &monitor.rows(node).len())
                    .field("gained", &monitor.gained(node).len())
                    .field("lost", &monitor.lost(node).len())
                    .field("pending", &monitor.pending(node).len())
                    .finish()
            }
        }
        f.debug_struct("Monitor")
            .field("number", &self.number())
            .field("worked", &self.worked().collect::<Vec<_>>())
            .field("nodes", &(0..self.nodes()).map(|i| Node(self, i)).collect::<Vec<_>>())
            .finish_non_exhaustive()
    }
}
