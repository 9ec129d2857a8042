//! Rules for outgoing calls: the rerouting and originating parts.

use crate::answer::{Answer, Message};
use crate::codes::*;
use crate::event::Event;
use crate::notice;
use crate::record::Record;
use crate::waits::{Dli1, Waits};

/// The state rules don't take the event; `states` has the number, which was 5
/// in the sentences here.
pub fn refuses(record: &Record, event: &Event) -> bool {
    // "leg 2 in CDR Idle is 5", of 12 and of 14
    let missing_leg = event.leg == 2 && !record.is_invoked();
    match event.kind {
        REROUTE => missing_leg,
        DLI1 => record.basic == ACTIVE,
        MESSAGE => missing_leg || message_refused(record, event),
        _ => false,
    }
}

/// "FACILITY on leg 2 or in CDO Idle is 5; in Active all but RELEASE COMPLETE
/// are 5"
fn message_refused(record: &Record, event: &Event) -> bool {
    let facility = event.message == FACILITY && (event.leg == 2 || record.cdo != DIVERT);
    facility || (record.basic == ACTIVE && event.message != RELEASE_COMPLETE)
}

/// The record of kind 1.
pub fn opened(event: &Event) -> Record {
    Record {
        direction: OUTGOING,
        basic: PROCEEDING,
        leg1: event.first,
        ..Record::default()
    }
}

/// Carries out kinds 12 to 14, which were found good before.
pub fn act(record: &mut Record, event: &Event) -> Answer {
    match event.kind {
        REROUTE => reroute(record, event),
        DLI1 => Answer {
            notice: notice::dli1(record, Dli1::of(event)),
            ..Answer::done(event.call, vec![])
        },
        _ => match event.message {
            RELEASE_COMPLETE => released(record, event),
            _ => message(record, event),
        },
    }
}

/// 11: "RELEASE COMPLETE on leg 1, then on leg 2 in Invoked"
pub fn end_messages(record: &Record) -> Vec<Message> {
    let legs = if record.is_invoked() { 1..=2 } else { 1..=1 };
    legs.map(|leg| Message::plain('X', leg)).collect()
}

/// Kind 12. Leg 1's invoke is carried out in CDR Idle, leg 2's in Invoked.
fn reroute(record: &mut Record, event: &Event) -> Answer {
    let messages = match (record.is_invoked(), event.leg, event.reason) {
        (true, 2, CFU | CFB) if !record.waits.is_full() => forward_on(record, event),
        (false, 1, CFU | CFB) if record.basic != ACTIVE => return forward(record, event),
        (false, 1, CFNR) if record.basic == DELIVERED => invoke(record, event),
        // "CDR Invoked, Active, or cfnr outside Delivered: return error on
        // that leg, the record stays (ours)"; "A cfnr invoke on leg 2, a
        // sixteenth wait, or any invoke on leg 1 in Invoked still gets the
        // return error" (02, Six)
        _ => vec![Message::echo('E', event.leg, event.identifier)],
    };
    Answer::done(event.call, messages)
}

/// "return result and RELEASE COMPLETE on leg 1, SETUP with DLI2 to the
/// destination, now leg 1; Proceeding; DLI1 (reason, option, destination) to
/// the own CDO"
fn forward(record: &mut Record, event: &Event) -> Answer {
    let messages = vec![
        Message::echo('R', 1, event.identifier),
        Message::plain('X', 1),
        setup(record.leg1, event, 1),
    ];
    record.leg1 = event.second;
    record.basic = PROCEEDING;
    Answer {
        notice: notice::dli1(record, Dli1::of(event)),
        ..Answer::done(event.call, messages)
    }
}

/// "return result on leg 1, SETUP with DLI2 on leg 2, Invoked". Leg 1 rings
/// on: it is not released before leg 2 takes over.
fn invoke(record: &mut Record, event: &Event) -> Vec<Message> {
    record.cdr = INVOKED;
    record.waits = Waits::begun(Dli1::of(event));
    vec![
        Message::echo('R', 1, event.identifier),
        setup(record.leg1, event, 2),
    ]
}

/// "result and RELEASE COMPLETE on leg 2, SETUP with DLI2 (its counter, C's
/// number as diverting number) to the new destination, now leg 2" (02, Six).
/// Nothing reaches the CDO yet.
fn forward_on(record: &mut Record, event: &Event) -> Vec<Message> {
    let diverting = record.leg2();
    record.waits.add(Dli1::of(event));
    vec![
        Message::echo('R', 2, event.identifier),
        Message::plain('X', 2),
        setup(diverting, event, 2),
    ]
}

/// "DLI2 holds counter, reason, the leg 1 party before the event as diverting
/// number, and the original called number received"; of an invoke on leg 2,
/// that leg's party.
fn setup(diverting: u16, event: &Event, leg: u8) -> Message {
    Message {
        counter: event.counter,
        reason: event.reason,
        destination: event.second,
        diverting,
        original: event.third,
        ..Message::plain('S', leg)
    }
}

/// FACILITY, ALERTING and CONNECT.
fn message(record: &mut Record, event: &Event) -> Answer {
    let mut messages = vec![];
    let mut told = None;
    if record.is_invoked() && event.leg == 2 {
        // "RELEASE COMPLETE on leg 1, leg 2 becomes leg 1, CDR Idle, DLI1 to
        // the CDO, then a DLI3"
        messages.push(Message::plain('X', 1));
        told = take_over(record);
    } else if record.is_invoked() && event.message == CONNECT {
        // "CONNECT on leg 1: RELEASE COMPLETE on leg 2, CDR Idle."
        messages.push(Message::plain('X', 2));
        drop_second_leg(record);
    }
    let number = notice::dli3(record, event.flag, event.second);
    // "ALERTING gives Delivered, CONNECT Active and, after its DLI3, CDO Idle."
    match event.message {
        ALERTING => record.basic = DELIVERED,
        CONNECT => {
            record.basic = ACTIVE;
            record.cdo = IDLE;
        }
        _ => {}
    }
    Answer {
        notice: told,
        number,
        ..Answer::done(event.call, messages)
    }
}

fn released(record: &mut Record, event: &Event) -> Answer {
    let mut messages = vec![];
    let mut told = None;
    if !record.is_invoked() {
        // "RELEASE on leg 1 in CDR Idle frees the record."
        *record = Record::default();
    } else if event.leg == 2 {
        // "cfnrDivertedLegFailed on leg 1, CDR Idle"
        messages.push(Message::plain('F', 1));
        drop_second_leg(record);
    } else {
        // "leg 2 becomes leg 1, Proceeding, CDR Idle, DLI1 to the CDO (ours)"
        told = take_over(record);
        record.basic = PROCEEDING;
    }
    Answer {
        notice: told,
        ..Answer::done(event.call, messages)
    }
}

/// Leg 2 becomes leg 1, and the waiting DLI1s are "handed to the own CDO in
/// order". Hands back the notice: only the first, the cfnr one, can give it.
fn take_over(record: &mut Record) -> Option<u8> {
    let waiting = record.waits.in_order();
    record.leg1 = record.leg2();
    drop_second_leg(record);
    waiting.into_iter().fold(None, |told, dli1| {
        let notice = notice::dli1(record, dli1);
        told.or(notice)
    })
}

/// CDR Idle; "the waiting ones are dropped" with the leg.
fn drop_second_leg(record: &mut Record) {
    record.cdr = IDLE;
    record.waits = Waits::default();
}
