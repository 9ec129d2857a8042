//! Rules for incoming calls.

use crate::answer::{Answer, Message};
use crate::codes::*;
use crate::event::Event;
use crate::record::Record;
use crate::sound::reason_fits;
use crate::station::Station;

/// "Messages of incoming calls bear leg 1."
const LEG: u8 = 1;

/// The state rules don't take the event; `states` has the number.
pub fn refuses(record: &Record, event: &Event) -> bool {
    match event.kind {
        USER_ALERTED => record.basic != PROCEEDING || leaving_at_once(record),
        USER_ANSWERS => record.basic == ACTIVE || leaving_at_once(record),
        USER_DIVERTS => {
            !reason_fits(event.reason, record.basic) || record.is_requested() || record.is_granted()
        }
        RESULT | ERROR => !record.is_requested(),
        LEG_FAILED => !(record.is_granted() && record.reason == CFNR),
        _ => false,
    }
}

/// "Both: 5 if Requested or granted with cfu or cfb." Now it is 11.
fn leaving_at_once(record: &Record) -> bool {
    (record.is_requested() || record.is_granted()) && record.reason != CFNR
}

/// The record of kind 2 or 3: Proceeding, services Idle, "kind 3 in CDF Wait
/// (its reason isn't kept)".
pub fn opened(event: &Event) -> Record {
    let diverted = event.kind == OPEN_DIVERTED;
    Record {
        direction: INCOMING,
        basic: PROCEEDING,
        own: event.first,
        cdf: if diverted { CDF_WAIT } else { CDF_NONE },
        counter: event.counter,
        diverting: event.second,
        original: event.third,
        ..Record::default()
    }
}

/// Clears request and grant: as by a reject, or when the call goes on.
pub fn end_request(record: &mut Record) {
    record.cds = IDLE;
    record.granted = 0;
    record.reason = 0;
    record.identifier = 0;
    record.start = 0;
}

/// Carries out kinds 4 to 9 and 15, which were found good before.
pub fn act(table: &mut [Record], station: &mut Station, event: &Event) -> Answer {
    let at = usize::from(event.call);
    let messages = match event.kind {
        USER_ALERTED => {
            table[at].basic = RECEIVED;
            vec![Message::plain('A', LEG)]
        }
        USER_ANSWERS => vec![answer(&mut table[at], event.flag)],
        USER_DIVERTS => vec![divert(table, station, event)],
        RESULT => {
            grant(&mut table[at]);
            vec![]
        }
        // 9 "clears" the grant; 8 leaves Idle and not granted.
        ERROR | LEG_FAILED => {
            end_request(&mut table[at]);
            vec![]
        }
        // "15 nothing; the record is free and its request ended"
        _ => {
            table[at] = Record::default();
            vec![]
        }
    };
    Answer::done(event.call, messages)
}

/// "in Wait it carries DLI3 with the flag, and the own number only if
/// allowed, and CDF is done"
fn answer(record: &mut Record, flag: u8) -> Message {
    record.basic = ACTIVE;
    // "Kind 5 ends an open cfnr request or grant (ours)."
    end_request(record);
    if record.cdf != CDF_WAIT {
        return Message::plain('C', LEG);
    }
    record.cdf = CDF_DONE;
    Message {
        flag,
        number: if flag == 1 { record.own } else { 0 },
        ..Message::plain('D', LEG)
    }
}

/// "7: Idle, granted." The reason stays as the grant's reason.
fn grant(record: &mut Record) {
    let reason = record.reason;
    end_request(record);
    record.granted = 1;
    record.reason = reason;
}

/// Kind 6: sends the invoke, enters Requested and starts T1.
fn divert(table: &mut [Record], station: &mut Station, event: &Event) -> Message {
    let identifier = station.draw_identifier(table);
    let record = &mut table[usize::from(event.call)];
    record.cds = REQUESTED;
    record.reason = event.reason;
    record.identifier = identifier;
    record.start = event.time;
    Message {
        reason: event.reason,
        option: event.option,
        counter: record.counter + 1,
        identifier,
        destination: event.second,
        diverting: record.own,
        original: original_called(record),
        ..Message::plain('I', LEG)
    }
}

/// "0 if the sent counter is 1, else the stored original, or the diverting
/// number if that is 0 (ours)"
fn original_called(record: &Record) -> u16 {
    if record.counter == 0 {
        0
    } else if record.original != 0 {
        record.original
    } else {
        record.diverting
    }
}

/// Kind 10: "of the records Requested with time minus start at least 10,000,
/// the lowest ends as by a reject and the answer names call and identifier".
/// Nothing where none is due.
pub fn expire(table: &mut [Record], time: u64) -> Option<Answer> {
    let at = table
        .iter()
        .position(|r| r.is_requested() && time.saturating_sub(r.start) >= T1)?;
    let identifier = table[at].identifier;
    end_request(&mut table[at]);
    Some(Answer {
        identifier: Some(identifier),
        ..Answer::done(at as u8, vec![])
    })
}
