//! Setting a forward from another panel (02, Seven): what the station keeps
//! for it, and the rules of kinds 16 to 31.

use crate::answer::{Answer, Message};
use crate::codes::*;
use crate::event::Event;
use crate::record::Record;
use crate::station::Station;
use std::fmt;

/// One request that waits for its answer; all 0 where none waits.
#[derive(Clone, Copy, Default, PartialEq, Eq, Hash)]
pub struct Pending {
    /// 0 Idle, 1 Wait.
    pub wait: u8,
    pub identifier: u16,
    /// Start of T2, T3, T4 or T5.
    pub start: u64,
}

/// The station's part in remote activation.
#[derive(Clone, Copy, Debug, Default, PartialEq, Eq, Hash)]
pub struct Remote {
    /// Our user's requests, one of each sort at most, in the order of sorts.
    pub pending: [Pending; SORTS],
    /// "at most one destination for each type": cfu, cfb, cfnr; 0: none.
    pub kept: [u16; 3],
    /// "remote activation enabled"
    pub enabled: u8,
    /// "diversion to us allowed"
    pub allowed: u8,
}

/// The sort of a kind from 16 to 31.
pub fn sort(kind: u8) -> usize {
    usize::from(kind - ACTIVATION_REQUEST) % SORTS
}

impl Pending {
    pub fn waits(&self) -> bool {
        self.wait == WAIT
    }

    /// Time minus start is at least the timer's length.
    pub fn is_due(&self, time: u64, length: u64) -> bool {
        self.waits() && time.saturating_sub(self.start) >= length
    }
}

impl Remote {
    /// Both marks as given, nothing pending and "at first none" kept.
    pub fn fresh(enabled: u8, allowed: u8) -> Remote {
        Remote {
            enabled,
            allowed,
            ..Remote::default()
        }
    }

    /// The identifiers of the requests that wait.
    pub fn open(&self) -> Vec<u16> {
        let waiting = self.pending.iter().filter(|pending| pending.waits());
        waiting.map(|pending| pending.identifier).collect()
    }

    pub fn has_open(&self, identifier: u16) -> bool {
        self.open().contains(&identifier)
    }

    /// "then T2 to T5": the first that is due ends; "expiry equal to a
    /// reject". The answer has its identifier and no call.
    pub fn expire(&mut self, time: u64) -> Option<Answer> {
        let due = |sort: &usize| self.pending[*sort].is_due(time, TIMERS[*sort]);
        let sort = (0..SORTS).find(due)?;
        let identifier = self.pending[sort].identifier;
        self.pending[sort] = Pending::default();
        Some(Answer {
            identifier: Some(identifier),
            ..Answer::default()
        })
    }

    /// The place of a type from 1 to 3.
    fn kept_for(&mut self, reason: u8) -> &mut u16 {
        &mut self.kept[usize::from(reason - CFU)]
    }
}

/// "16 to 19 with one of the same sort pending is 9; a result or error with
/// none pending is 5, with another identifier 6." (02, Seven) "in Seven its
/// [5's] case becomes 11, and 9 stays" (02, Eight)
pub fn refusal(remote: &Remote, event: &Event) -> u8 {
    let pending = &remote.pending[sort(event.kind)];
    match event.kind {
        ACTIVATION_REQUEST..=CHECK_REQUEST if pending.waits() => 9,
        ACTIVATION_RESULT..=CHECK_ERROR if !pending.waits() => 11,
        ACTIVATION_RESULT..=CHECK_ERROR if event.identifier != pending.identifier => 6,
        _ => 0,
    }
}

/// Carries out kinds 16 to 31, which were found good before.
pub fn act(table: &[Record], station: &mut Station, event: &Event) -> Answer {
    match event.kind {
        ACTIVATION_REQUEST..=CHECK_REQUEST => Answer::without_call(request(table, station, event)),
        ACTIVATION_INVOKE..=CHECK_INVOKE => {
            let said = received(&mut station.remote, event);
            let letter = if said.is_some() { 'r' } else { 'e' };
            Answer::without_call(Message {
                destination: said.unwrap_or(0),
                ..Message::echo(letter, 0, event.identifier)
            })
        }
        // "any answer to the check [...] leaves the number valid": the other
        // sorts' too only end the wait.
        _ => {
            station.remote.pending[sort(event.kind)] = Pending::default();
            Answer::default()
        }
    }
}

/// Kinds 16 to 19: sends the invoke to the far panel, waits and starts the
/// sort's timer.
fn request(table: &[Record], station: &mut Station, event: &Event) -> Message {
    let sort = sort(event.kind);
    let identifier = station.draw_identifier(table);
    station.remote.pending[sort] = Pending {
        wait: WAIT,
        identifier,
        start: event.time,
    };
    Message {
        reason: event.reason,
        identifier,
        destination: event.second,
        number: event.first,
        ..Message::plain(['a', 'd', 'i', 'c'][sort], 0)
    }
}

/// Kinds 20 to 23: the destination that a result tells, 0 where it tells
/// none; nothing for a return error.
fn received(remote: &mut Remote, event: &Event) -> Option<u16> {
    match event.kind {
        // "stored, over any existing one, and answered with a result when
        // enabled, else with a return error"
        ACTIVATION_INVOKE => (remote.enabled == 1).then(|| {
            *remote.kept_for(event.reason) = event.second;
            0
        }),
        // "Deactivation and interrogation get an error when none stands"
        DEACTIVATION_INVOKE => {
            let stood = std::mem::take(remote.kept_for(event.reason));
            (stood != 0).then_some(0)
        }
        INTERROGATION_INVOKE => Some(*remote.kept_for(event.reason)).filter(|&kept| kept != 0),
        // "a check when the mark forbids"
        _ => (remote.allowed == 1).then_some(0),
    }
}

/// Mark, identifier and start, so that four fit in a line.
impl fmt::Debug for Pending {
    fn fmt(&self, f: &mut fmt::Formatter) -> fmt::Result {
        write!(f, "{}/{}/{}", self.wait, self.identifier, self.start)
    }
}
