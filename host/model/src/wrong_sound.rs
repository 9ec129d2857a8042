//! Wrong models that take a station of document 02, Seven, for a sound one.

use crate::answer::Answer;
use crate::codes::*;
use crate::event::Event;
use crate::record::Record;
use crate::remote::Pending;
use crate::station::{self, Station};
use crate::step::step;
use crate::wrong::Step;

/// Mends one thing of a station.
type Mend = fn(&[Record], &mut Station);

/// What each passes as sound.
pub const REMOTE: [(&str, Step); 8] = [
    ("an enabled mark above 1", |t, s, e| {
        taken_for(t, s, e, |_, s| s.remote.enabled = s.remote.enabled.min(1))
    }),
    ("an allowed mark above 1", |t, s, e| {
        taken_for(t, s, e, |_, s| s.remote.allowed = s.remote.allowed.min(1))
    }),
    ("a wait above 1", |t, s, e| {
        taken_for(t, s, e, |_, s| each(s, |p| p.wait = p.wait.min(WAIT)))
    }),
    ("an unused field", |t, s, e| {
        taken_for(t, s, e, |_, s| each(s, clear_unused))
    }),
    ("an identifier 0", |t, s, e| taken_for(t, s, e, no_zero)),
    ("a start after the last time", |t, s, e| {
        let mend: Mend = |_, s| {
            let last = s.last_time;
            each(s, |p| p.start = p.start.min(last));
        };
        taken_for(t, s, e, mend)
    }),
    ("an identifier shared with a call", |t, s, e| {
        taken_for(t, s, e, apart_from_calls)
    }),
    ("an identifier shared by two sorts", |t, s, e| {
        taken_for(t, s, e, apart_from_sorts)
    }),
];

/// The event on the mended station.
fn taken_for(table: &mut [Record], station: &mut Station, event: &Event, mend: Mend) -> Answer {
    let mut mended = *station;
    mend(table, &mut mended);
    let answer = step(table, &mut mended, event);
    if answer.code != 1 {
        *station = mended;
    }
    answer
}

fn each(station: &mut Station, mend: impl Fn(&mut Pending)) {
    station.remote.pending.iter_mut().for_each(mend);
}

fn clear_unused(pending: &mut Pending) {
    if pending.wait == 0 {
        *pending = Pending::default();
    }
}

/// An identifier that nobody has.
fn unused(table: &[Record], station: &Station) -> u16 {
    Station {
        next_identifier: station::after(station.next_identifier),
        ..*station
    }
    .free_identifier(table)
}

fn no_zero(table: &[Record], station: &mut Station) {
    for sort in 0..SORTS {
        let pending = station.remote.pending[sort];
        if pending.waits() && pending.identifier == 0 {
            station.remote.pending[sort].identifier = unused(table, station);
        }
    }
}

fn apart_from_calls(table: &[Record], station: &mut Station) {
    for sort in 0..SORTS {
        let identifier = station.remote.pending[sort].identifier;
        let shares = |r: &Record| r.is_requested() && r.identifier == identifier;
        if table.iter().any(shares) {
            station.remote.pending[sort].identifier = unused(table, station);
        }
    }
}

fn apart_from_sorts(table: &[Record], station: &mut Station) {
    for sort in 1..SORTS {
        let pending = station.remote.pending[sort];
        let before = &station.remote.pending[..sort];
        let shares = |p: &Pending| p.waits() && p.identifier == pending.identifier;
        if pending.waits() && before.iter().any(shares) {
            station.remote.pending[sort].identifier = unused(table, station);
        }
    }
}
