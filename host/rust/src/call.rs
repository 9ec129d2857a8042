//! Call records.

use crate::raw::{self, lies};
use crate::waits::Waits;
use crate::{Basic, Direction, Dli1, Number, Reason};
use core::fmt;

/// One record of the table that a host owns and lends. The engine alone writes
/// it; the readers say what a panel may want to show. Of a record that no
/// engine has left, as of damaged memory, they say what they can.
#[derive(Clone, Copy)]
#[repr(C)]
pub struct Call {
    direction: u8,
    basic: u8,
    cdo: u8,
    cdr: u8,
    cds: u8,
    cdf: u8,
    granted: u8,
    counter: u8,
    start: u64,
    party: u16,
    history: History,
    own: u16,
    diverting: u16,
    original: u16,
    identifier: u16,
    reason: u8,
    /// Not told by the library: whatever stands here.
    padding: u8,
    waiting: Waits,
}

#[derive(Clone, Copy)]
#[repr(C)]
struct History {
    seen: u8,
    strictest: u8,
    forbidden: u8,
    shown: u8,
    nominated: u16,
}

lies!(Call, 96, direction 0 basic 1 cdo 2 cdr 3 cds 4 cdf 5 granted 6 counter 7 start 8
    party 16 history 18 own 24 diverting 26 original 28 identifier 30 reason 32
    padding 33 waiting 34);
lies!(History, 6, seen 0 strictest 1 forbidden 2 shown 3 nominated 4);

/// An open callRerouting request of an incoming call.
#[derive(Clone, Copy, Debug, PartialEq, Eq)]
pub struct Request {
    /// The identifier that its result or error will bear; not 0.
    pub identifier: u16,
    /// Why the call is to be diverted.
    pub reason: Reason,
    /// When it was sent, in ms; 10 s later a clock event ends it.
    pub start: u64,
}

impl Call {
    /// A free record.
    pub const FREE: Call = Call {
        direction: 0,
        basic: 0,
        cdo: 0,
        cdr: 0,
        cds: 0,
        cdf: 0,
        granted: 0,
        counter: 0,
        start: 0,
        party: 0,
        history: History {
            seen: 0,
            strictest: 0,
            forbidden: 0,
            shown: 0,
            nominated: 0,
        },
        own: 0,
        diverting: 0,
        original: 0,
        identifier: 0,
        reason: 0,
        padding: 0,
        waiting: Waits::NONE,
    };

    /// Whether a call may be opened here.
    pub const fn is_free(&self) -> bool {
        self.direction == 0
    }

    /// Who made the call; none of a free record.
    pub const fn direction(&self) -> Option<Direction> {
        Direction::of(self.direction)
    }

    /// The basic state; none of a free record.
    pub const fn basic(&self) -> Option<Basic> {
        Basic::of(self.basic)
    }

    /// The party on leg 1 of an outgoing call; after an event, the one that is
    /// leg 1 then ([`Leg`](crate::Leg)).
    pub const fn party(&self) -> Option<Number> {
        Number::new(self.party)
    }

    /// The party on leg 2 of an outgoing call, while a no-reply diversion tries it;
    /// where there is none, there is no leg 2.
    pub const fn forwarded(&self) -> Option<Number> {
        Number::new(self.waiting.last_number())
    }

    /// What waits with leg 2, in the order in which it came: the diversion on no reply
    /// that opened it, and each one that was accepted on leg 2 since then, up to
    /// [`MOST_WAITING`](crate::MOST_WAITING) in all. The last one's number is
    /// [`Call::forwarded`]. The caller is told of none before leg 2 becomes leg 1; where
    /// leg 2 or the call ends instead, all are dropped.
    pub fn waiting(&self) -> impl Iterator<Item = Dli1> {
        self.waiting.in_order()
    }

    /// The number that an outgoing call was last said to be diverted to.
    pub const fn nominated(&self) -> Option<Number> {
        Number::new(self.history.nominated)
    }

    /// Whether a number of the diverted-to party was shown to the caller, since the last
    /// divertingLegInformation1 on no reply if there was one.
    pub const fn number_shown(&self) -> bool {
        self.history.shown == 1
    }

    /// The station's own number that an incoming call was made to.
    pub const fn own(&self) -> Option<Number> {
        Number::new(self.own)
    }

    /// How often an incoming call was diverted before; none if it was not.
    pub const fn counter(&self) -> Option<u8> {
        match self.counter {
            0 => None,
            counter => Some(counter),
        }
    }

    /// The number from which an incoming call was diverted.
    pub const fn diverting(&self) -> Option<Number> {
        Number::new(self.diverting)
    }

    /// The number that an incoming call was first made to.
    pub const fn original(&self) -> Option<Number> {
        Number::new(self.original)
    }

    /// The open request to divert an incoming call.
    pub const fn request(&self) -> Option<Request> {
        match self.cds {
            1 => Some(Request {
                identifier: self.identifier,
                reason: Reason::of(self.reason),
                start: self.start,
            }),
            _ => None,
        }
    }

    /// The reason of a request that was granted, while the call still stands.
    pub const fn granted(&self) -> Option<Reason> {
        match self.granted {
            1 => Some(Reason::of(self.reason)),
            _ => None,
        }
    }

    /// The 96 bytes as they lie in this machine's memory, to keep them elsewhere
    /// with [`FORMAT`](crate::FORMAT) beside them.
    /// Bytes 33 and 39 are padding, and may be anything: leave them out of a checksum.
    pub fn to_bytes(&self) -> [u8; 96] {
        raw::bytes_of(*self)
    }

    /// The record of bytes that were kept under this [`FORMAT`](crate::FORMAT). Any bytes will do: a table that is
    /// not sound is refused when it is lent.
    pub fn from_bytes(bytes: [u8; 96]) -> Call {
        raw::call_of(bytes)
    }

    /// The record of the 40 bytes that were kept under format 1. One that waits there
    /// is the first here; all else stays.
    pub fn from_format_1(bytes: [u8; 40]) -> Call {
        /// Codes; start; party; history; own to reason; what waits: where they lie
        /// now, where they lay and how many bytes they are.
        const PARTS: [(usize, usize, usize); 6] = [
            (0, 0, 8),
            (8, 32, 8),
            (16, 8, 2),
            (18, 14, 6),
            (24, 20, 9),
            (34, 10, 4),
        ];
        let mut now = [0; 96];
        for (to, from, count) in PARTS {
            now[to..to + count].copy_from_slice(&bytes[from..from + count]);
        }
        Call::from_bytes(now)
    }

    fn unpadded(&self) -> [u8; 96] {
        let mut call = *self;
        (call.padding, call.waiting.padding) = (0, 0);
        call.to_bytes()
    }
}

impl Default for Call {
    fn default() -> Call {
        Call::FREE
    }
}

/// Padding aside.
impl PartialEq for Call {
    fn eq(&self, other: &Call) -> bool {
        self.unpadded() == other.unpadded()
    }
}

impl Eq for Call {}

impl fmt::Debug for Call {
    fn fmt(&self, f: &mut fmt::Formatter<'_>) -> fmt::Result {
        match self.direction() {
            _ if *self == Call::FREE => f.write_str("Call::FREE"),
            Some(Direction::Outgoing) => f
                .debug_struct("Outgoing")
                .field("basic", &self.basic())
                .field("party", &self.party())
                .field("waiting", &Listed(self))
                .field("nominated", &self.nominated())
                .field("number_shown", &self.number_shown())
                .finish_non_exhaustive(),
            Some(Direction::Incoming) => f
                .debug_struct("Incoming")
                .field("basic", &self.basic())
                .field("own", &self.own())
                .field("counter", &self.counter())
                .field("diverting", &self.diverting())
                .field("original", &self.original())
                .field("request", &self.request())
                .field("granted", &self.granted())
                .finish_non_exhaustive(),
            None => f.debug_tuple("Damaged").field(&self.to_bytes()).finish(),
        }
    }
}

/// What waits on a call.
struct Listed<'a>(&'a Call);

impl fmt::Debug for Listed<'_> {
    fn fmt(&self, f: &mut fmt::Formatter<'_>) -> fmt::Result {
        f.debug_list().entries(self.0.waiting()).finish()
    }
}
