//! What a done event is to a call in Invoked, by name, for counting.

use crate::answer::Answer;
use crate::codes::*;
use crate::event::Event;
use crate::record::Record;
use std::collections::BTreeMap;

/// The ways out of Invoked: three that hand over and three that drop.
pub const OUT: [&str; 6] = [
    "leg 2 alerts",
    "leg 2 connects",
    "leg 1 is released",
    "leg 2 is released",
    "leg 1 connects",
    "the call ends",
];

/// What leaves the call in Invoked.
pub const WITHIN: [&str; 7] = [
    "one more waits",
    "a sixteenth is refused",
    "cfnr on leg 2 is refused",
    "an invoke on leg 1 is refused",
    "a DLI1 is told",
    "leg 1 alerts again",
    "a FACILITY on leg 1",
];

/// The name of what happened; none where the call was not in Invoked.
pub fn way(before: &Record, event: &Event) -> Option<&'static str> {
    if !before.is_invoked() {
        return None;
    }
    Some(match (event.kind, event.leg, event.message) {
        (REROUTE, 1, _) => WITHIN[3],
        (REROUTE, _, _) if event.reason == CFNR => WITHIN[2],
        (REROUTE, _, _) if before.waits.is_full() => WITHIN[1],
        (REROUTE, _, _) => WITHIN[0],
        (DLI1, _, _) => WITHIN[4],
        (MESSAGE, 2, ALERTING) => OUT[0],
        (MESSAGE, 2, CONNECT) => OUT[1],
        (MESSAGE, 1, RELEASE_COMPLETE) => OUT[2],
        (MESSAGE, 2, RELEASE_COMPLETE) => OUT[3],
        (MESSAGE, 1, CONNECT) => OUT[4],
        (MESSAGE, 1, ALERTING) => WITHIN[5],
        (MESSAGE, 1, FACILITY) => WITHIN[6],
        _ => OUT[5],
    })
}

/// How often each way was met with one, with 2 to 14 and with 15 waiting.
#[derive(Clone, Debug, Default)]
pub struct Ways(pub BTreeMap<&'static str, [u32; 3]>);

impl Ways {
    /// Counts a done event; `table` is the one before it.
    pub fn add(&mut self, table: &[Record], event: &Event, answer: &Answer) {
        let call = answer.call.filter(|_| answer.code == 0);
        let before = call.and_then(|call| table.get(usize::from(call)));
        let found = before.and_then(|before| Some((before, way(before, event)?)));
        if let Some((before, name)) = found {
            let many = match before.waits.used().len() {
                0 => 0,
                _ if before.waits.is_full() => 2,
                _ => 1,
            };
            self.0.entry(name).or_default()[many] += 1;
        }
    }

    pub fn of(&self, name: &str) -> [u32; 3] {
        self.0.get(name).copied().unwrap_or_default()
    }
}
