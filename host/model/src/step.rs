//! One event on a lent table: the refusals in the page's order, then the work.

use crate::answer::Answer;
use crate::codes::*;
use crate::event::Event;
use crate::record::Record;
use crate::sound;
use crate::station::Station;
use crate::{incoming, outgoing, remote, states};

/// Takes one event. A refusal leaves table and station as they are; "a done
/// event makes its time the last time".
pub fn step(table: &mut [Record], station: &mut Station, event: &Event) -> Answer {
    let code = refusal(table, station, event);
    if code != 0 {
        return Answer::refused(code);
    }
    let answer = carry_out(table, station, event);
    station.last_time = event.time;
    answer
}

/// The answer's number, "tested in this order".
pub fn refusal(table: &[Record], station: &Station, event: &Event) -> u8 {
    if !sound::lent_sound(table, station) {
        return 1;
    }
    if event.time < station.last_time {
        return 2;
    }
    if !event.well_made() {
        return 3;
    }
    match event.kind {
        OPEN_OUTGOING..=OPEN_DIVERTED => match lowest_free(table) {
            None => 8,
            Some(_) => 0,
        },
        CLOCK => 0,
        ACTIVATION_REQUEST..=CHECK_ERROR => remote::refusal(&station.remote, event),
        _ => match named_record(table, event) {
            None => 4,
            Some(record) => refusal_of_call(record, station, event),
        },
    }
}

/// The record of a kind that names a call, unless "call past the table's end,
/// free, or of the other direction (4 to 9, 15 incoming; 12 to 14 outgoing;
/// 11 either)".
fn named_record<'a>(table: &'a [Record], event: &Event) -> Option<&'a Record> {
    let record = table.get(usize::from(event.call))?;
    let fits = match event.kind {
        OWN_END => !record.is_free(),
        REROUTE..=MESSAGE => record.direction == OUTGOING,
        _ => record.direction == INCOMING,
    };
    fits.then_some(record)
}

/// Refusals 10, 11, 6 and 7 of an event whose call is there: 10 and 11 stand
/// where 5 stood.
fn refusal_of_call(record: &Record, station: &Station, event: &Event) -> u8 {
    let by_state = states::refusal(record, event);
    let answers_request = matches!(event.kind, RESULT | ERROR);
    if by_state != 0 {
        by_state
    } else if answers_request && event.identifier != record.identifier {
        6
    } else if event.kind == USER_DIVERTS && record.counter + 1 > station.limit {
        7
    } else {
        0
    }
}

/// "An open takes the lowest free record."
fn lowest_free(table: &[Record]) -> Option<usize> {
    table.iter().position(Record::is_free)
}

/// The work of an event that is not refused.
fn carry_out(table: &mut [Record], station: &mut Station, event: &Event) -> Answer {
    let at = usize::from(event.call);
    match event.kind {
        OPEN_OUTGOING => open(table, outgoing::opened(event)),
        OPEN_INCOMING | OPEN_DIVERTED => open(table, incoming::opened(event)),
        CLOCK => clock(table, station, event.time),
        ACTIVATION_REQUEST..=CHECK_ERROR => remote::act(table, station, event),
        OWN_END => {
            // 11 "sends RELEASE COMPLETE"; "the record is free and its
            // request ended". Incoming calls have leg 1 alone.
            let messages = outgoing::end_messages(&table[at]);
            table[at] = Record::default();
            Answer::done(event.call, messages)
        }
        REROUTE..=MESSAGE => outgoing::act(&mut table[at], event),
        _ => incoming::act(table, station, event),
    }
}

/// "Clock events end T1 requests first, then T2 to T5" (02, Seven), one for
/// each event. "With none due, the answer has no call."
fn clock(table: &mut [Record], station: &mut Station, time: u64) -> Answer {
    incoming::expire(table, time)
        .or_else(|| station.remote.expire(time))
        .unwrap_or_default()
}

/// An open "sends nothing: the host has sent the SETUP".
fn open(table: &mut [Record], record: Record) -> Answer {
    match lowest_free(table) {
        Some(at) => {
            table[at] = record;
            Answer::done(at as u8, vec![])
        }
        None => Answer::refused(8),
    }
}
