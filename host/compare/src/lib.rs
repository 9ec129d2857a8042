//! Runs the proved engine and the model side by side, event by event on lent
//! records and in runs by value, and compares all that is left: every field of
//! the answer, of every record, of the station, and the part of the array that is
//! not lent. Plans are compared by what is told of them.
#![forbid(unsafe_code)]

pub mod check;
pub mod difference;
pub mod engine;
pub mod exports;
pub mod headers;
pub mod hostile;
pub mod memory;
pub mod plans;
pub mod program;
pub mod stations;
pub mod tables;
pub mod wire;
pub mod wrapped;

pub use engine::{Archive, Engine};
pub use wire::Board;
