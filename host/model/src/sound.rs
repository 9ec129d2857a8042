//! When a record and a table are sound: one function for each sentence of the
//! page's list; those of the station are in `station_sound`.

use crate::codes::*;
use crate::record::Record;
use crate::station::Station;
use crate::station_sound::{no_shared_identifier, station_sound};
use crate::waits::{Dli1, Waits, MOST_LATER};

/// "each code is in range". A free record has no basic state, a used one has.
pub fn codes_in_range(r: &Record) -> bool {
    let marks = [r.cdo, r.cdr, r.seen, r.forbidden, r.shown, r.cds, r.granted];
    r.direction <= INCOMING
        && r.basic <= ACTIVE
        && (r.basic == 0) == r.is_free()
        && marks.iter().all(|&mark| mark <= 1)
        && waiting_codes_in_range(&r.waits)
        && r.strictest <= WITH_NUMBER
        && r.cdf <= CDF_DONE
        && r.counter <= MOST_DIVERSIONS
        && r.reason <= CFNR
}

/// Also of the places that are not in use.
fn waiting_codes_in_range(waits: &Waits) -> bool {
    let in_range = |dli1: &Dli1| dli1.reason <= CFNR && dli1.option <= WITH_NUMBER;
    in_range(&waits.first) && waits.later.iter().all(in_range)
}

/// "each party, own and (DLI1 seen) nominated number is not 0"
pub fn numbers_not_zero(r: &Record) -> bool {
    match r.direction {
        OUTGOING => {
            let waiting = r.waits.in_order();
            r.leg1 != 0
                && (!r.is_invoked() || waiting.iter().all(|dli1| dli1.number != 0))
                && (r.seen == 0 || r.nominated != 0)
        }
        INCOMING => r.own != 0,
        _ => true,
    }
}

/// "each unused field is 0", of the other direction or of a free record
pub fn other_directions_fields_zero(r: &Record) -> bool {
    match r.direction {
        OUTGOING => *r == outgoing_part(r),
        INCOMING => *r == incoming_part(r),
        _ => *r == Record::default(),
    }
}

/// The fields that the page names for outgoing calls, all others 0.
fn outgoing_part(r: &Record) -> Record {
    Record {
        direction: r.direction,
        basic: r.basic,
        cdo: r.cdo,
        cdr: r.cdr,
        leg1: r.leg1,
        waits: r.waits,
        seen: r.seen,
        strictest: r.strictest,
        forbidden: r.forbidden,
        shown: r.shown,
        nominated: r.nominated,
        ..Record::default()
    }
}

/// The fields that the page names for incoming calls, all others 0.
fn incoming_part(r: &Record) -> Record {
    Record {
        direction: r.direction,
        basic: r.basic,
        cds: r.cds,
        cdf: r.cdf,
        own: r.own,
        counter: r.counter,
        diverting: r.diverting,
        original: r.original,
        reason: r.reason,
        identifier: r.identifier,
        start: r.start,
        granted: r.granted,
        ..Record::default()
    }
}

/// "in Invoked also the forwarded party (leg 2), option and reason", and what
/// else waits
pub fn second_leg_only_in_invoked(r: &Record) -> bool {
    r.is_invoked() || r.waits == Waits::default()
}

/// "Up to 15 may wait, the first cfnr one included." (02, Six)
pub fn fifteen_wait_at_most(r: &Record) -> bool {
    usize::from(r.waits.count) <= MOST_LATER
}

/// "soundness [covers] the kept ones (the first cfnr, the others cfu or cfb)"
/// (02, Six); of the first below.
pub fn later_ones_cfu_or_cfb(r: &Record) -> bool {
    let waiting = r.waits.used();
    waiting.iter().all(|dli1| matches!(dli1.reason, CFU | CFB))
}

/// "each unused field is 0", of the places behind those that wait
pub fn unused_places_zero(r: &Record) -> bool {
    let unused = r.waits.unused();
    unused.iter().all(|dli1| *dli1 == Dli1::default())
}

/// "It is all 0 before the first DLI1"
pub fn history_zero_before_dli1(r: &Record) -> bool {
    r.seen != 0 || (r.strictest == 0 && r.forbidden == 0 && r.shown == 0 && r.nominated == 0)
}

/// "counter 0 to 15 (0: no diversion), diverting and original called numbers"
pub fn numbers_only_with_counter(r: &Record) -> bool {
    r.counter != 0 || (r.diverting == 0 && r.original == 0)
}

/// "in Requested the reason, identifier and T1 start; a granted mark with its
/// reason"
pub fn request_fields_only_in_use(r: &Record) -> bool {
    (r.is_requested() || (r.identifier == 0 && r.start == 0))
        && (r.is_requested() || r.is_granted() || r.reason == 0)
}

/// "an open request with 0 [...] is 1" (02, Three)
pub fn open_identifier_not_zero(r: &Record) -> bool {
    !r.is_requested() || r.identifier != 0
}

/// "CDF is none exactly when the counter is 0"
pub fn cdf_none_exactly_without_counter(r: &Record) -> bool {
    (r.cdf == CDF_NONE) == (r.counter == 0)
}

/// "CDO is Divert exactly when a DLI1 was seen and the state isn't Active"
pub fn divert_exactly_after_dli1(r: &Record) -> bool {
    (r.cdo == DIVERT) == (r.seen == 1 && r.basic != ACTIVE)
}

/// "CDR is Invoked only in Delivered and with reason cfnr"
pub fn invoked_only_in_delivered(r: &Record) -> bool {
    !r.is_invoked() || (r.basic == DELIVERED && r.waits.first.is_no_reply())
}

/// "Requested and granted exclude each other and Active"
pub fn requested_granted_active_apart(r: &Record) -> bool {
    let states = [r.is_requested(), r.is_granted(), r.basic == ACTIVE];
    states.iter().filter(|&&holds| holds).count() <= 1
}

/// "their reason fits the basic state (cfu and cfb Proceeding, cfnr
/// Received)"
pub fn request_reason_fits(r: &Record) -> bool {
    !(r.is_requested() || r.is_granted()) || reason_fits(r.reason, r.basic)
}

/// The reasons for which a call in this basic state may be diverted.
pub fn reason_fits(reason: u8, basic: u8) -> bool {
    match reason {
        CFU | CFB => basic == PROCEEDING,
        CFNR => basic == RECEIVED,
        _ => false,
    }
}

/// "Wait excludes Active"
pub fn wait_excludes_active(r: &Record) -> bool {
    !(r.cdf == CDF_WAIT && r.basic == ACTIVE)
}

/// A name and what it says of a record.
pub type Sentence = (&'static str, fn(&Record) -> bool);

/// The sentences about one record, each with a name for reports.
pub const RECORD_SENTENCES: [Sentence; 17] = [
    ("codes_in_range", codes_in_range),
    ("numbers_not_zero", numbers_not_zero),
    ("other_directions_fields_zero", other_directions_fields_zero),
    ("second_leg_only_in_invoked", second_leg_only_in_invoked),
    ("fifteen_wait_at_most", fifteen_wait_at_most),
    ("later_ones_cfu_or_cfb", later_ones_cfu_or_cfb),
    ("unused_places_zero", unused_places_zero),
    ("history_zero_before_dli1", history_zero_before_dli1),
    ("numbers_only_with_counter", numbers_only_with_counter),
    ("request_fields_only_in_use", request_fields_only_in_use),
    ("open_identifier_not_zero", open_identifier_not_zero),
    (
        "cdf_none_exactly_without_counter",
        cdf_none_exactly_without_counter,
    ),
    ("divert_exactly_after_dli1", divert_exactly_after_dli1),
    ("invoked_only_in_delivered", invoked_only_in_delivered),
    (
        "requested_granted_active_apart",
        requested_granted_active_apart,
    ),
    ("request_reason_fits", request_reason_fits),
    ("wait_excludes_active", wait_excludes_active),
];

/// All that is asked of one record by itself.
pub fn record_sound(record: &Record) -> bool {
    RECORD_SENTENCES.iter().all(|(_, holds)| holds(record))
}

/// "no T1 start is after the last time"
pub fn no_start_after_last_time(table: &[Record], last_time: u64) -> bool {
    table
        .iter()
        .all(|r| !r.is_requested() || r.start <= last_time)
}

/// "The host lends the table of calls as 1 to 64 call records."
pub fn length_in_range(table: &[Record]) -> bool {
    (1..=MOST_RECORDS).contains(&table.len())
}

/// The records of a table of any length are sound, each alone and beside the
/// last time.
pub fn records_sound(table: &[Record], last_time: u64) -> bool {
    table.iter().all(record_sound) && no_start_after_last_time(table, last_time)
}

/// The opposite of refusal 1.
pub fn lent_sound(table: &[Record], station: &Station) -> bool {
    length_in_range(table)
        && station_sound(station)
        && records_sound(table, station.last_time)
        && no_shared_identifier(table, station)
}
