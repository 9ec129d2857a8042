//! What a host keeps beside its table, and the step.

use crate::raw::{self, lies};
use crate::remote::Remote;
use crate::{Answer, Call, Event, Forward, Number, Pending, Refusal, Sort};
use core::fmt;
use core::mem::MaybeUninit;

/// A station: the time of its last done event, its next identifier, its diversion
/// limit, and what it holds of forwards that are set from another panel.
#[derive(Clone, Copy)]
#[repr(C)]
pub struct Station {
    last: u64,
    next: u16,
    limit: u8,
    /// Not told by the library, which may leave it unwritten.
    padding: [MaybeUninit<u8>; 5],
    remote: Remote,
}

lies!(Station, 88, last 0 next 8 limit 10 padding 11 remote 16);

impl Station {
    /// A fresh station that lets a call be diverted `limit` times, 1 to 15; any
    /// other limit is [`Refusal::NotWellMade`]. The marks: other panels may set its
    /// forwards, and calls may be diverted to it.
    pub fn fresh(limit: u8, enabled: bool, allowed: bool) -> Result<Station, Refusal> {
        let made = raw::fresh(limit, enabled.into(), allowed.into());
        match made.code {
            0 => Ok(made.station),
            code => Err(Refusal::of(code)),
        }
    }

    /// A fresh station of the short form: limit 5, both marks set. (15 in earlier
    /// archives; one that was kept has the limit it was made with.)
    pub fn short() -> Station {
        raw::fresh_short()
    }

    /// A station of these numbers and marks, with nothing pending and no destination
    /// kept. A limit that is not 1 to 15, or next identifier 0, is refused with the first
    /// event. Over a restart of this format use [`Station::to_bytes`], which has all of it.
    ///
    /// Earlier archives gave identifier 0 after 65,535: what they left, without a
    /// format number, may have next identifier 0, or an open request with it, and every event is then
    /// [`Refusal::NotSound`]. Start again with free records and a fresh station;
    /// or, where the next identifier is 0 and no request is open with 0, hand in 1:
    /// `Station::kept(s.last(), 1, s.limit(), true, true)`; or, before the archive is changed, let
    /// a request with 0 end: by its answer, by a clock event 10,000 ms after it, or
    /// with its call.
    pub const fn kept(last: u64, next: u16, limit: u8, enabled: bool, allowed: bool) -> Station {
        Station {
            last,
            next,
            limit,
            padding: [MaybeUninit::new(0); 5],
            remote: Remote::marked(enabled, allowed),
        }
    }

    /// The 88 bytes as they lie in this machine's memory, to keep them elsewhere with
    /// [`FORMAT`](crate::FORMAT) beside them. Padding is 0 here: bytes 11 to 15, and of
    /// each pending request, from 16, 32, 48 and 64 on, the last five.
    pub fn to_bytes(&self) -> [u8; 88] {
        let mut bytes = [0; 88];
        bytes[..8].copy_from_slice(&self.last.to_ne_bytes());
        bytes[8..10].copy_from_slice(&self.next.to_ne_bytes());
        bytes[10] = self.limit;
        bytes[16..].copy_from_slice(&self.remote.to_bytes());
        bytes
    }

    /// The station of bytes that were kept under this [`FORMAT`](crate::FORMAT). Any
    /// will do: one that is not sound is refused with the first event.
    pub fn from_bytes(bytes: [u8; 88]) -> Station {
        let (mut first, mut rest) = ([0; 16], [0; 72]);
        first.copy_from_slice(&bytes[..16]);
        rest.copy_from_slice(&bytes[16..]);
        let mut station = Station::from_format_2(first, false, false);
        station.remote = Remote::from_bytes(&rest);
        station
    }

    /// The station of the 16 bytes that were kept under format 1 or 2, with these
    /// marks: nothing is pending, and no destination is kept.
    pub fn from_format_2(bytes: [u8; 16], enabled: bool, allowed: bool) -> Station {
        let (mut last, mut next) = ([0; 8], [0; 2]);
        last.copy_from_slice(&bytes[..8]);
        next.copy_from_slice(&bytes[8..10]);
        let (last, next) = (u64::from_ne_bytes(last), u16::from_ne_bytes(next));
        Station::kept(last, next, bytes[10], enabled, allowed)
    }

    /// The time of the last done event, in ms.
    pub const fn last(&self) -> u64 {
        self.last
    }

    /// The identifier that the next request takes, unless an open one has it;
    /// not 0.
    pub const fn next_identifier(&self) -> u16 {
        self.next
    }

    /// How often a call may be diverted.
    pub const fn limit(&self) -> u8 {
        self.limit
    }

    /// Where calls are to be forwarded, as another panel has asked: the destination of
    /// the last activation of this type that was accepted
    /// ([`Kind::Asked`](crate::Kind::Asked)), unless it was deactivated since. It diverts no
    /// call by itself: a host that follows it diverts each call,
    /// [`Kind::Divert`](crate::Kind::Divert) with [`Forward::reason`].
    pub const fn destination(&self, forward: Forward) -> Option<Number> {
        self.remote.kept(forward)
    }

    /// The request of this sort that was sent to another panel and waits for its answer.
    pub const fn pending(&self, sort: Sort) -> Option<Pending> {
        self.remote.pending(sort)
    }

    /// Whether other panels may set forwards here. What stands is kept, and may be
    /// deactivated and asked for, also where they may not.
    pub const fn is_enabled(&self) -> bool {
        self.remote.enabled == 1
    }

    /// Whether calls may be diverted to this station: the answer to a check.
    pub const fn is_allowed(&self) -> bool {
        self.remote.allowed == 1
    }

    /// Sets the marks, as a user of the panel wants them from now on.
    pub fn set_marks(&mut self, enabled: bool, allowed: bool) {
        self.remote.enabled = enabled.into();
        self.remote.allowed = allowed.into();
    }

    /// One event on the lent table. A done event moves the station on and
    /// changes at most one record; a refused one changes nothing. A table of no
    /// or over 64 records is [`Refusal::NotSound`].
    pub fn step(&mut self, table: &mut [Call], event: &Event) -> Result<Answer, Refusal> {
        let told = raw::lent_step(table, *self, event.raw());
        *self = told.station;
        Answer::read(&told.answer)
    }
}

/// Padding aside.
impl PartialEq for Station {
    fn eq(&self, other: &Station) -> bool {
        self.to_bytes() == other.to_bytes()
    }
}

impl Eq for Station {}

impl fmt::Debug for Station {
    fn fmt(&self, f: &mut fmt::Formatter<'_>) -> fmt::Result {
        f.debug_struct("Station")
            .field("last", &self.last)
            .field("next", &self.next)
            .field("limit", &self.limit)
            .field("pending", &Sort::ALL.map(|sort| self.pending(sort)))
            .field(
                "destinations",
                &Forward::ALL.map(|forward| self.destination(forward)),
            )
            .field("enabled", &self.is_enabled())
            .field("allowed", &self.is_allowed())
            .finish()
    }
}
