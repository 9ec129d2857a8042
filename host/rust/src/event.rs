//! Events.

use crate::{raw, words, Ask, Choice, Leg, Number, Reason, Sort};

/// An event and its time.
#[derive(Clone, Copy, Debug, PartialEq, Eq)]
pub struct Event {
    /// In ms; never before that of the last done event.
    pub time: u64,
    /// What happened.
    pub kind: Kind,
}

/// What happened, with what the engine needs to know of it. A `call` is the
/// place of its record, which the answer to its open named; a `leg` that on which it
/// came, as it is numbered before the event. Each kind that sends says what, by the letters of
/// [`Message::letter`](crate::Message::letter) and the leg, and what becomes of the legs
/// of an outgoing call. `Invoked` is a call with a second leg
/// ([`Call::forwarded`](crate::Call::forwarded)).
#[derive(Clone, Copy, Debug, PartialEq, Eq)]
#[non_exhaustive]
#[allow(missing_docs)] // fields that are named by what they hold
pub enum Kind {
    /// The host has sent a SETUP to this party: that connection is leg 1.
    OpenOutgoing { party: Number },
    /// A SETUP has come for this own number.
    OpenIncoming { own: Number },
    /// The same with divertingLegInformation2; the counter is 1 to 15.
    OpenDiverted {
        own: Number,
        reason: Reason,
        counter: u8,
        diverting: Option<Number>,
        original: Option<Number>,
    },
    /// An incoming call rings: A1.
    Alerted { call: u8 },
    /// The user answers; `allowed`: the own number may be shown to the caller. C1, and
    /// for a call opened as diverted D1.
    Answered { call: u8, allowed: bool },
    /// The user diverts an incoming call, for a reason other than unknown: I1.
    Divert {
        call: u8,
        reason: Reason,
        option: Choice,
        destination: Number,
    },
    /// The result of our callRerouting invoke with this identifier, which is not 0.
    Result { call: u8, identifier: u16 },
    /// Its error or reject.
    Error { call: u8, identifier: u16 },
    /// cfnrDivertedLegFailed was received.
    LegFailed { call: u8 },
    /// Time has passed. An answer that has an identifier ended a request: that of the
    /// call it names, or one to another panel where it names none. Send another one,
    /// until it has none.
    Clock,
    /// The own side ends the call: X1, and in Invoked X2 after it.
    End { call: u8 },
    /// A callRerouting invoke was received on an outgoing call, for a reason
    /// other than unknown; the counter is 1 to 15, and the identifier may be 0.
    ///
    /// Cfu or cfb: R1 X1 S1, and the connection of the SETUP is leg 1. Cfnr while the
    /// call rings: R1 S2, and it is leg 2. In Invoked, cfu or cfb on leg 2 while fewer
    /// than [`MOST_WAITING`](crate::MOST_WAITING) wait: R2 X2 S2, and it is leg 2 in
    /// place of the other. All else in Invoked, of an answered call, and cfnr before the
    /// call rings: E on the leg on which it came, and the legs stay.
    Reroute {
        call: u8,
        leg: Leg,
        reason: Reason,
        option: Choice,
        counter: u8,
        identifier: u16,
        destination: Number,
        original: Option<Number>,
    },
    /// divertingLegInformation1 was received on an outgoing call; sends nothing.
    Dli1 {
        call: u8,
        reason: Reason,
        option: Choice,
        nominated: Number,
    },
    /// A message was received on an outgoing call; without a second leg nothing is
    /// sent.
    Received {
        call: u8,
        leg: Leg,
        message: Received,
    },
    /// The far end ends an incoming call; sends nothing.
    FarEnd { call: u8 },
    /// The user asks another panel to forward its calls, and so on ([`Ask`]): the letters
    /// a, d, i and c. This kind and the next three name no call, and leave the table as it
    /// is.
    ///
    /// At most one request of each [`Sort`] is pending; another is
    /// [`AlreadyAsked`](crate::Refusal::AlreadyAsked). It ends by a result or an error of
    /// its sort with its identifier, or by a clock event [`Sort::time`] after it, which
    /// equals a reject. Clock events end the requests of calls first, then these in the
    /// order of their sorts.
    Ask { panel: Number, ask: Ask },
    /// Another panel asks us: r, or e. Its number decides nothing, and the identifier,
    /// which is echoed, may be 0.
    ///
    /// An activation is kept ([`Station::destination`](crate::Station::destination)) over
    /// any that stands of its type, and gets r, where that is enabled; else e, and nothing
    /// is kept. It sends no check by itself. A deactivation and an interrogation get e
    /// where none of their type stands; r of an interrogation has the destination. A check
    /// gets r where diversion to us is allowed.
    Asked {
        panel: Number,
        identifier: u16,
        ask: Ask,
    },
    /// The result of our request of this sort; with the destination of an interrogation,
    /// which is for the host alone: the engine neither keeps nor shows it. It ends the
    /// pending request that has its identifier, and sends and answers nothing: what it
    /// says is for the host to tell its user.
    ///
    /// By clause 9.3.4 of H.450.3 any answer to a check, and its expiry, leaves the number
    /// valid: the request ends, and nothing else changes.
    RemoteResult {
        sort: Sort,
        identifier: u16,
        destination: Option<Number>,
    },
    /// An error or reject of our request of this sort; ends it as the result does.
    RemoteError { sort: Sort, identifier: u16 },
    /// All of a record but its time, for one that is none of the above: the
    /// engine refuses it with [`NotWellMade`](crate::Refusal::NotWellMade).
    Raw([u8; 16]),
}

/// A message that was received.
#[derive(Clone, Copy, Debug, PartialEq, Eq)]
pub enum Received {
    /// FACILITY, on leg 1. Sends nothing; the legs stay.
    Facility(Dli3),
    /// ALERTING. In Invoked, on leg 2: X1, and leg 2 becomes leg 1. Then, and
    /// wherever else leg 2 becomes leg 1, the caller is told of what waits.
    Alerting(Option<Dli3>),
    /// CONNECT. In Invoked, on leg 1: X2, and leg 2 is gone; on leg 2: X1, and leg 2
    /// becomes leg 1.
    Connect(Option<Dli3>),
    /// RELEASE COMPLETE. In Invoked, on leg 1: leg 2 becomes leg 1, and no message
    /// says so; on leg 2: F1, and leg 2 is gone. Else the record is free.
    ReleaseComplete,
}

/// A divertingLegInformation3.
#[derive(Clone, Copy, Debug, PartialEq, Eq)]
pub struct Dli3 {
    /// Whether the number may be shown.
    pub allowed: bool,
    /// The number of the diverted-to party.
    pub number: Option<Number>,
}

impl Kind {
    /// In words.
    pub fn text(&self) -> &'static str {
        words::kind(self.raw(0).kind)
    }
}

impl Event {
    /// An event at a time in ms.
    pub const fn at(time: u64, kind: Kind) -> Event {
        Event { time, kind }
    }

    /// The event of a record of 24 bytes. Every record is read, also one that
    /// is not well made, and `to_bytes` gives its bytes again.
    pub fn from_bytes(bytes: &[u8; 24]) -> Event {
        let raw = raw::event_of(bytes);
        let known = Kind::read(&raw).filter(|kind| kind.raw(raw.time) == raw);
        let kind = known.unwrap_or_else(|| {
            let mut first = [0; 16];
            first.copy_from_slice(&bytes[..16]);
            Kind::Raw(first)
        });
        Event::at(raw.time, kind)
    }

    /// The record of 24 bytes, big-endian.
    pub fn to_bytes(&self) -> [u8; 24] {
        let e = self.raw();
        let mut bytes = [0; 24];
        let small = [
            e.kind, e.call, e.leg, e.message, e.reason, e.option, e.counter, e.flag,
        ];
        bytes[..8].copy_from_slice(&small);
        let numbers = [e.identifier, e.first, e.second, e.third];
        for (place, number) in bytes[8..16].chunks_exact_mut(2).zip(numbers) {
            place.copy_from_slice(&number.to_be_bytes());
        }
        bytes[16..].copy_from_slice(&e.time.to_be_bytes());
        bytes
    }

    /// Whether the engine takes its kind and fields; if not, a step refuses it
    /// with [`NotWellMade`](crate::Refusal::NotWellMade).
    pub fn is_well_made(&self) -> bool {
        raw::well_made(self.raw())
    }

    pub(crate) fn raw(&self) -> raw::Event {
        self.kind.raw(self.time)
    }
}
