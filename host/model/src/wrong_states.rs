//! Wrong models of document 02, Eight, each of which a comparison must find.

use crate::answer::Answer;
use crate::codes::*;
use crate::event::Event;
use crate::record::Record;
use crate::station::Station;
use crate::step::step;

/// An event that is 10 or 11. The record of kinds 24 to 31 is free.
pub struct Refused<'a> {
    record: Record,
    limit: u8,
    event: &'a Event,
    code: u8,
}

/// The number that is given in place of the right one.
pub type Number = fn(&Refused) -> u8;

/// What each gets wrong.
pub const STATES: [(&str, Number); 22] = [
    ("5 still given", |_| 5),
    ("10 and 11 exchanged", |r| 21 - r.code),
    ("11 tested first", |r| r.given(11, r.service_forbids())),
    ("10 by the kind alone", |r| {
        r.given(11, kind_is_taken(r.record.basic, r.event.kind))
    }),
    ("6 tested before them", |r| {
        let reply = matches!(r.event.kind, RESULT | ERROR);
        let other = r.event.identifier != r.record.identifier;
        r.given(6, reply && other)
    }),
    ("7 tested before them", |r| {
        let deep = r.record.counter + 1 > r.limit;
        r.given(7, r.is(USER_DIVERTS) && deep)
    }),
    ("a result in Active as 11", |r| {
        r.given(11, r.is(RESULT) && r.record.basic == ACTIVE)
    }),
    ("an error in Active as 11", |r| {
        r.given(11, r.is(ERROR) && r.record.basic == ACTIVE)
    }),
    ("a second alerting as 11", |r| {
        r.given(11, r.is(USER_ALERTED) && r.record.basic == RECEIVED)
    }),
    ("a second answer as 11", |r| r.given(11, r.is(USER_ANSWERS))),
    ("an unfit divert as 11", |r| r.given(11, r.is(USER_DIVERTS))),
    ("a failed leg in Proceeding as 11", |r| {
        r.given(11, r.is(LEG_FAILED) && r.record.basic == PROCEEDING)
    }),
    ("a FACILITY on leg 2 as 11", |r| {
        r.given(11, r.event.message == FACILITY && r.event.leg == 2)
    }),
    ("a FACILITY in Active as 11", |r| {
        r.given(11, r.event.message == FACILITY && r.record.basic == ACTIVE)
    }),
    ("an invoke on leg 2 in Proceeding as 11", |r| {
        r.given(11, r.is(REROUTE) && r.record.basic == PROCEEDING)
    }),
    ("a message on leg 2 in Active as 11", |r| {
        let second = r.is(MESSAGE) && r.event.leg == 2;
        r.given(
            11,
            second && r.event.message != FACILITY && r.record.basic == ACTIVE,
        )
    }),
    ("a missing leg 2 in Delivered as 10", |r| {
        r.given(10, r.event.leg == 2)
    }),
    ("a FACILITY in CDO Idle as 10", |r| {
        r.given(10, r.event.message == FACILITY)
    }),
    ("a forbidden alerting or answer as 10", |r| {
        r.given(10, r.is(USER_ALERTED) || r.is(USER_ANSWERS))
    }),
    ("a reply or failed leg without its like as 10", |r| {
        r.given(10, (RESULT..=LEG_FAILED).contains(&r.event.kind))
    }),
    ("24 to 31 with none pending as 5", |r| {
        r.given(5, r.event.kind > FAR_END)
    }),
    ("24 to 31 with none pending as 10", |r| {
        r.given(10, r.event.kind > FAR_END)
    }),
];

impl Refused<'_> {
    fn is(&self, kind: u8) -> bool {
        self.event.kind == kind
    }

    /// This number where that is so, else the right one.
    fn given(&self, number: u8, so: bool) -> u8 {
        match so {
            true => number,
            false => self.code,
        }
    }

    /// A service state forbids the event, whether the basic state does or not.
    fn service_forbids(&self) -> bool {
        let (record, event) = (&self.record, self.event);
        let busy = record.is_requested() || record.is_granted();
        match event.kind {
            USER_ALERTED | USER_ANSWERS => busy && record.reason != CFNR,
            USER_DIVERTS => busy,
            RESULT | ERROR => !record.is_requested(),
            LEG_FAILED => !record.is_granted(),
            REROUTE | MESSAGE if event.leg == 2 => !record.is_invoked(),
            MESSAGE => event.message == FACILITY && record.cdo == IDLE,
            _ => true,
        }
    }
}

/// Some event of that kind is taken in that basic state.
fn kind_is_taken(basic: u8, kind: u8) -> bool {
    match kind {
        USER_ALERTED => basic == PROCEEDING,
        LEG_FAILED => basic == RECEIVED,
        REROUTE | MESSAGE => true,
        _ => basic != ACTIVE,
    }
}

/// The model that gives this number.
pub fn numbered(number: Number) -> impl Fn(&mut [Record], &mut Station, &Event) -> Answer {
    move |table, station, event| {
        let answer = step(table, station, event);
        if !matches!(answer.code, 10 | 11) {
            return answer;
        }
        let record = match event.kind {
            ..=FAR_END => table[usize::from(event.call)],
            _ => Record::default(),
        };
        Answer::refused(number(&Refused {
            record,
            limit: station.limit,
            event,
            code: answer.code,
        }))
    }
}
