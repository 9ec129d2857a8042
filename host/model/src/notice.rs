//! The own CDO: what the caller is told of a diversion, from the history of
//! the call's DLI1s and DLI3s.

use crate::codes::*;
use crate::record::Record;
use crate::waits::Dli1;

/// A DLI1 reaches the CDO. Hands back the notice.
pub fn dli1(record: &mut Record, told: Dli1) -> Option<u8> {
    let Dli1 {
        reason,
        option,
        number,
    } = told;
    // The first option is taken as it is: the stored 0 is no option yet.
    let first = record.seen == 0;
    record.strictest = if first {
        option
    } else {
        record.strictest.min(option)
    };
    record.cdo = DIVERT;
    record.seen = 1;
    record.nominated = number;
    // "after a shown number, a DLI1 with reason cfnr opens the way for
    // another, while all the other conditions still hold" (02, Two)
    if reason == CFNR {
        record.shown = 0;
    }
    // "The first of a call gives a notice unless its option is 0. A later one
    // gives a notice exactly if its reason is cfnr and no option so far is 0."
    let tells = (first || reason == CFNR) && record.strictest != NO_NOTIFICATION;
    tells.then_some(reason)
}

/// A DLI3 (flag 1 or 2) reaches the CDO. Hands back the number shown.
pub fn dli3(record: &mut Record, flag: u8, number: u16) -> Option<u16> {
    // "In CDO Idle a DLI3 inside ALERTING or CONNECT is passed over."
    if flag == NO_DLI3 || record.cdo != DIVERT {
        return None;
    }
    if flag == DLI3_FORBIDDEN {
        record.forbidden = 1;
    }
    // "exactly if every option so far is 2, every DLI3 so far is allowed and
    // no number has been shown in this call", now since its last cfnr DLI1
    if record.strictest != WITH_NUMBER || record.forbidden != 0 || record.shown != 0 {
        return None;
    }
    record.shown = 1;
    // "its number, or the last nominated one if absent"
    Some(if number == 0 {
        record.nominated
    } else {
        number
    })
}
