//! The panel printout: event records in, one line each out.

use crate::answer::Answer;
use crate::codes::MOST_RECORDS;
use crate::event::{Event, SIZE};
use crate::record::Record;
use crate::station::Station;
use crate::step::step;

/// "`panelrun` names 15 itself so that its stored printouts stay" (02, Four)
pub const LIMIT: u8 = 15;

/// "starts with 64 free records and a fresh station of limit 15", both marks
/// set
pub fn start() -> (Vec<Record>, Station) {
    let station = Station {
        limit: LIMIT,
        ..Station::short()
    };
    (vec![Record::default(); MOST_RECORDS], station)
}

/// The answers to a list of events from the panel's start.
pub fn answers(events: &[Event]) -> Vec<Answer> {
    let (mut table, mut station) = start();
    events
        .iter()
        .map(|event| step(&mut table, &mut station, event))
        .collect()
}

/// The whole events of these bytes, and the bytes of a cut last record.
pub fn records(bytes: &[u8]) -> (Vec<Event>, &[u8]) {
    let whole = bytes.chunks_exact(SIZE);
    let rest = whole.remainder();
    let events = whole
        .map(|chunk| {
            let mut record = [0; SIZE];
            record.copy_from_slice(chunk);
            Event::decode(&record)
        })
        .collect();
    (events, rest)
}

/// The bytes of a list of events.
pub fn bytes(events: &[Event]) -> Vec<u8> {
    events.iter().flat_map(Event::encode).collect()
}

/// The printout. "A cut last record prints `cut` and its byte count."
pub fn print(input: &[u8]) -> String {
    let (events, rest) = records(input);
    let mut lines = String::new();
    for (position, answer) in answers(&events).iter().enumerate() {
        lines.push_str(&answer.line(position));
        lines.push('\n');
    }
    if !rest.is_empty() {
        lines.push_str(&format!("cut {}\n", rest.len()));
    }
    lines
}
