//! The proved call diversion engine (ITU-T H.450.3) for a host in Rust.
//!
//! The host owns a table of 1 to 64 [`Call`] records and a [`Station`], and
//! lends the table for one [`Event`] at a time. A done event gives an [`Answer`]:
//! the messages to send, and what to show to the caller. A [`Refusal`] says
//! what to do, and leaves table and station as they were.
//!
//! ```
//! use whipsail::{Call, Event, Kind, Number, Refusal, Station};
//!
//! # fn main() -> Result<(), Refusal> {
//! let mut table = [Call::FREE; 64];
//! let mut station = Station::fresh(15, true, true)?;
//!
//! let own = Number::new(102).unwrap();
//! let answer = station.step(&mut table, &Event::at(4, Kind::OpenIncoming { own }))?;
//! assert_eq!(answer.call, Some(0));
//!
//! let early = Event::at(3, Kind::Clock);
//! assert_eq!(station.step(&mut table, &early), Err(Refusal::TimeBefore));
//! # Ok(())
//! # }
//! ```
//!
//! A panel can also be asked to forward its calls, from another one ("follow me"): the
//! kinds from [`Kind::Ask`] on, which name no call. What a station was asked for is
//! [`Station::destination`].
//!
//! A [`Plan`] of forwardings can be rehearsed without a call: which panel rings?
//!
//! The archive must have the layout of this crate: another one does not link
//! (`undefined reference to whipsail_layout_..`). Codes, letters and reasons that a
//! later archive adds are `Other`.
//!
//! Nothing is allocated, and neither `std` nor any other crate is needed.
#![no_std]
#![deny(unsafe_op_in_unsafe_fn)]

#[cfg(test)]
extern crate std;

mod answer;
mod call;
mod code;
mod event;
#[cfg(test)]
mod following;
mod kinds;
mod plan;
mod raw;
mod refusal;
#[cfg(test)]
mod refused;
mod remote;
mod station;
#[cfg(test)]
mod tests;
#[cfg(test)]
mod unknown;
#[cfg(test)]
mod waiting;
mod waits;
mod words;

pub use answer::{Answer, Message, PlainMessage};
pub use call::{Call, Request};
pub use code::{Basic, Choice, Direction, Leg, Reason};
pub use event::{Dli3, Event, Kind, Received};
pub use plan::{Ending, Panel, Plan, Rehearsal};
pub use refusal::Refusal;
pub use remote::{Ask, Forward, Pending, Sort};
pub use station::Station;
pub use waits::Dli1;

/// A party number, 1 to 65,535; an absent one is `None`.
pub type Number = core::num::NonZeroU16;

/// The format of what a host keeps over a restart, [`Station::to_bytes`] and
/// [`Call::to_bytes`]: keep this number beside them. Where another stands there, do not
/// lend them, but start again with free records and a fresh station. It moves whenever
/// their layout changes, or what their bytes mean, or which of them are sound. What was
/// kept under 2 may also be converted: the records as they are, the station by
/// [`Station::from_format_2`]. So may what was kept under 1: the station by the same,
/// each record by [`Call::from_format_1`]. What was kept before there was a number has the
/// layout of 1, but may not be sound: [`Station::kept`] says when.
pub const FORMAT: u32 = 3;

/// The most records that a table may have.
pub const MOST_RECORDS: usize = 64;

/// The most divertingLegInformation1s that wait on one call ([`Call::waiting`]).
pub const MOST_WAITING: usize = 15;

/// The most panels that a plan may have.
pub const MOST_PANELS: usize = 256;
