//! The number of an event that the state rules don't take (02, Eight): "10
//! when no sound record in that basic state takes the event, 11 when only a
//! service state (CDS, CDR, CDO, a grant, a missing leg 2) forbids it".

use crate::codes::*;
use crate::event::Event;
use crate::record::Record;
use crate::sound::reason_fits;
use crate::{incoming, outgoing};

/// 10 or 11 for an event about this record, 0 where the rules take it. "10 is
/// tested first; 5 is no longer given".
pub fn refusal(record: &Record, event: &Event) -> u8 {
    if no_record_takes(record.basic, event) {
        10
    } else if refuses(record, event) {
        11
    } else {
        0
    }
}

/// "The state rules below don't take the event"
pub fn refuses(record: &Record, event: &Event) -> bool {
    match event.kind {
        REROUTE..=MESSAGE => outgoing::refuses(record, event),
        _ => incoming::refuses(record, event),
    }
}

/// "no sound record in that basic state takes the event", which is meant with
/// its fields. The direction is that of the event's kind; kind 11 is taken in
/// both.
pub fn no_record_takes(basic: u8, event: &Event) -> bool {
    match event.kind {
        USER_ALERTED => basic != PROCEEDING,
        USER_DIVERTS => !reason_fits(event.reason, basic),
        USER_ANSWERS | DLI1 => basic == ACTIVE,
        // Requested excludes Active.
        RESULT | ERROR => basic == ACTIVE,
        // A grant with cfnr fits Received.
        LEG_FAILED => basic != RECEIVED,
        // There is a leg 2 in Invoked, which is "only in Delivered".
        REROUTE => event.leg == 2 && basic != DELIVERED,
        MESSAGE => match (event.leg, event.message) {
            (2, FACILITY) => true,
            (2, _) => basic != DELIVERED,
            (_, RELEASE_COMPLETE) => false,
            _ => basic == ACTIVE,
        },
        _ => false,
    }
}
