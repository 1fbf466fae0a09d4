//! Networks and batches of the trap stations as text, and what advisers ask about them. `docs/TEXT.md` has the grammar.
//!
//! - [`grammar`]: the one table of line forms, and how a line is cut into words
//! - [`network`]: networks, to and from bytes; [`text`]: to and from text
//! - [`batches`]: files of batches, to and from bytes and text
//! - [`refused`]: refusals in words, with what is wrong in the record at fault
//! - [`station`]: batches applied by the library, told with names; [`why`]: the origins of a row
//! - [`draw`]: pictures; [`commands`]: the command line
//!
//! The library alone judges: a network through `bagwezin_read`, a batch through `bagwezin_apply`.
pub mod batches;
pub mod commands;
pub mod draw;
pub mod grammar;
pub mod network;
pub mod refused;
pub mod station;
pub mod text;
pub mod why;

pub use network::{Network, Row};
