//! A safe wrapper of the proved condition monitor of the trap stations (`include/bagwezin.h`).
//!
//! A [`Monitor`] owns a network, its four areas and the pending area. Batches go in, and the rows that each node gained and lost come out:
//!
//! ```
//! // blocks (table 0: block, catch) with a catch of at least 8 that are not sprayed (table 3: block)
//! let network = [
//!     6, 0, 1, 0, 2, 0,                           // node 0: table of width 2
//!     14, 0, 2, 0, 0, 0, 1, 0, 5, 0, 8, 0, 0, 0,  // node 1: its rows with field 1 at least 8
//!     10, 0, 4, 0, 1, 0, 1, 0, 0, 0,              // node 2: their field 0
//!     6, 0, 1, 0, 1, 0,                           // node 3: table of width 1
//!     8, 0, 7, 0, 2, 0, 3, 0,                     // node 4: 2 without 3
//!     8, 0, 9, 0, 4, 0, 3, 0,                     // watch on 4, gained and lost
//! ];
//! let mut monitor = bagwezin::Monitor::open(&network)?;
//! let put_catch = [14, 0, 32, 0, 0, 0, 5, 0, 0, 0, 9, 0, 0, 0];
//! let put_spray = [10, 0, 32, 0, 3, 0, 5, 0, 0, 0];
//! assert_eq!(monitor.apply(&put_catch)?, 1);
//! assert_eq!(monitor.gained(4).collect::<Vec<_>>(), [[5]]);
//! assert_eq!(monitor.apply(&put_spray)?, 2);
//! assert_eq!(monitor.lost(4).collect::<Vec<_>>(), [[5]]);
//! // a refusal carries number and place, prints the rule, and changes nothing
//! let refusal = monitor.apply(&[1, 2]).unwrap_err();
//! assert_eq!(refusal.to_string(), "refused 10 at byte 0: an event record's length is broken");
//! assert_eq!(monitor.number(), 2);
//! # Ok::<(), bagwezin::Refusal>(())
//! ```
//!
//! Alerts wait for the adviser: [`Monitor::fold`], called once after each accepted batch, folds its changes into the pending rows of the nodes
//! watched with sign 1 or 3, and [`Monitor::take`] takes these out one by one, the highest priority first.
//!
//! The calls keep no state, so monitors may run on different threads; each call takes at most [`STACK`] bytes of stack. [`raw`] has the calls on lent
//! slices.

mod file;
mod monitor;
pub mod raw;
mod refusal;

pub use file::{batches, cut, End};
pub use monitor::{read, Alert, Monitor, NodeShape, Resumed};
pub use refusal::{outcome, Refusal};

/// The most nodes of a network.
pub const NODES: usize = 32;
/// The most fields of a row, and the words of a taking's answer.
pub const FIELDS: usize = 4;
/// The highest priority of a watch.
pub const PRIORITY: usize = 9;
/// Named words of rows, gained and lost.
pub const AREA: usize = 8192;
/// Named words of the head.
pub const HEAD: usize = 162;
/// Named words of the pending area: rows as in the areas, then a count for each node.
pub const PENDING: usize = 8224;
/// The first of the pending area's counts.
pub const PENDING_COUNTS: usize = 8192;
/// Words of the reader's answer.
pub const ANSWER: usize = 97;
/// The most bytes of a report: 128 records of 22 bytes.
pub const REPORT: usize = 2816;
/// The most bytes of stack that a call of the static library takes.
pub const STACK: usize = 64 * 1024;
