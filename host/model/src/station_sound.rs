//! When a station is sound: one function for each sentence. Any last time
//! and any kept destination will do.

use crate::codes::*;
use crate::record::Record;
use crate::remote::Pending;
use crate::station::Station;

/// "its diversion limit (1 to 15)"
pub fn limit_in_range(station: &Station) -> bool {
    (1..=MOST_DIVERSIONS).contains(&station.limit)
}

/// "a station whose next identifier is 0 isn't sound" (02, Three)
pub fn next_identifier_not_zero(station: &Station) -> bool {
    station.next_identifier != 0
}

/// "codes in range" (02, Seven), of the two marks
pub fn marks_in_range(station: &Station) -> bool {
    station.remote.enabled <= 1 && station.remote.allowed <= 1
}

fn each_pending(station: &Station, holds: impl Fn(&Pending) -> bool) -> bool {
    station.remote.pending.iter().all(holds)
}

/// "codes in range", of Idle and Wait
pub fn waits_in_range(station: &Station) -> bool {
    each_pending(station, |pending| pending.wait <= WAIT)
}

/// "unused fields 0", where none waits
pub fn unused_pending_zero(station: &Station) -> bool {
    each_pending(station, |pending| {
        pending.wait != 0 || (pending.identifier == 0 && pending.start == 0)
    })
}

/// "no identifier 0"
pub fn pending_identifier_not_zero(station: &Station) -> bool {
    each_pending(station, |pending| {
        !pending.waits() || pending.identifier != 0
    })
}

/// "no start after the last time"
pub fn no_pending_start_after_last_time(station: &Station) -> bool {
    each_pending(station, |pending| {
        !pending.waits() || pending.start <= station.last_time
    })
}

/// A name and what it says of a station.
pub type Sentence = (&'static str, fn(&Station) -> bool);

/// The sentences about the station by itself.
pub const STATION_SENTENCES: [Sentence; 7] = [
    ("limit_in_range", limit_in_range),
    ("next_identifier_not_zero", next_identifier_not_zero),
    ("marks_in_range", marks_in_range),
    ("waits_in_range", waits_in_range),
    ("unused_pending_zero", unused_pending_zero),
    ("pending_identifier_not_zero", pending_identifier_not_zero),
    (
        "no_pending_start_after_last_time",
        no_pending_start_after_last_time,
    ),
];

/// All that is asked of a station by itself.
pub fn station_sound(station: &Station) -> bool {
    STATION_SENTENCES.iter().all(|(_, holds)| holds(station))
}

/// "'no two open requests share' covers both tables" (02, Seven)
pub fn no_shared_identifier(table: &[Record], station: &Station) -> bool {
    let requested = table.iter().filter(|record| record.is_requested());
    let mut open: Vec<u16> = requested.map(|record| record.identifier).collect();
    open.extend(station.remote.open());
    open.sort_unstable();
    open.windows(2).all(|pair| pair[0] != pair[1])
}
