//! A plain model of the call diversion engine: one station, a lent table of
//! call records, one event at a time. It is written for reading, and for
//! comparing other programs with it, not for speed.
#![forbid(unsafe_code)]

pub mod answer;
pub mod cells;
pub mod codes;
pub mod event;
pub mod every;
pub mod forwarding;
pub mod guided;
pub mod incoming;
pub mod lent;
pub mod notice;
pub mod outgoing;
pub mod panel;
pub mod plan;
pub mod plans;
pub mod profile;
pub mod random;
pub mod record;
pub mod remote;
pub mod remote_events;
pub mod shrink;
pub mod sound;
pub mod states;
pub mod station;
pub mod station_sound;
pub mod step;
pub mod text;
pub mod untimely;
pub mod vectors;
pub mod waits;
pub mod ways;
pub mod wrong;
pub mod wrong_sound;
pub mod wrong_states;

pub use answer::{Answer, Message};
pub use event::Event;
pub use record::Record;
pub use remote::{Pending, Remote};
pub use station::Station;
pub use step::step;
pub use waits::{Dli1, Waits};
