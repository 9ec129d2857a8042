//! The engine in plain Rust, written for speed: one table in place, plain scans,
//! early exits, several fields tested at once. Its structs lie in memory as those
//! of `whipsail.h`, so that both engines can be lent the same table.
//!
//! What a step does to a call is always inlined: a run then makes nothing of an answer.
#![deny(unsafe_code)]

pub mod answer;
pub mod call;
pub mod event;
pub mod lent;
pub mod line;
pub mod remote;
pub mod rules;
pub mod sound;
pub mod station;
