//! Forwards that are set from another panel: what a station holds of them.

use crate::code::numbers;
use crate::raw::lies;
use crate::{Number, Reason};
use core::mem::MaybeUninit;

numbers! {
    /// A sort of request to another panel. A station has at most one of each
    /// pending ([`Station::pending`](crate::Station::pending)).
    #[derive(Debug)]
    Sort {
        /// Forward your calls: activateDiversionQ.
        Activation = 0,
        /// Forward them no more: deactivateDiversionQ.
        Deactivation = 1,
        /// Where do you forward them to? interrogateDiversionQ.
        Interrogation = 2,
        /// May calls be diverted to you? checkRestriction.
        Check = 3,
    }
}

impl Sort {
    /// All four, in the order in which clock events end them.
    pub const ALL: [Sort; 4] = [
        Sort::Activation,
        Sort::Deactivation,
        Sort::Interrogation,
        Sort::Check,
    ];

    /// The letter of its invoke.
    pub(crate) const fn letter(self) -> char {
        match self {
            Sort::Activation => 'a',
            Sort::Deactivation => 'd',
            Sort::Interrogation => 'i',
            Sort::Check => 'c',
        }
    }

    /// How long a request of this sort waits for its answer, in ms: T2 to T5.
    pub const fn time(self) -> u64 {
        match self {
            Sort::Activation => 30_000,
            Sort::Deactivation | Sort::Interrogation | Sort::Check => 15_000,
        }
    }
}

numbers! {
    /// A type of forward.
    #[derive(Debug)]
    Forward {
        /// Forwarding unconditional.
        Cfu = 1,
        /// Forwarding on busy.
        Cfb = 2,
        /// Forwarding on no reply.
        Cfnr = 3,
    }
}

impl Forward {
    /// All three.
    pub const ALL: [Forward; 3] = [Forward::Cfu, Forward::Cfb, Forward::Cfnr];

    /// The reason of a call that is diverted by it.
    pub const fn reason(self) -> Reason {
        Reason::of(self.number())
    }
}

/// What one panel asks of another.
#[derive(Clone, Copy, Debug, PartialEq, Eq)]
#[allow(missing_docs)] // fields that are named by what they hold
pub enum Ask {
    /// Forward your calls to the destination ("follow me").
    Activation {
        forward: Forward,
        destination: Number,
    },
    /// Forward them no more.
    Deactivation { forward: Forward },
    /// Where do you forward them to?
    Interrogation { forward: Forward },
    /// May calls be diverted to you?
    Check,
}

impl Ask {
    /// Its sort.
    pub const fn sort(self) -> Sort {
        match self {
            Ask::Activation { .. } => Sort::Activation,
            Ask::Deactivation { .. } => Sort::Deactivation,
            Ask::Interrogation { .. } => Sort::Interrogation,
            Ask::Check => Sort::Check,
        }
    }

    /// The type of forward that it is about; none of a check.
    pub const fn forward(self) -> Option<Forward> {
        match self {
            Ask::Activation { forward, .. }
            | Ask::Deactivation { forward }
            | Ask::Interrogation { forward } => Some(forward),
            Ask::Check => None,
        }
    }

    /// Where an activation leads to.
    pub const fn destination(self) -> Option<Number> {
        match self {
            Ask::Activation { destination, .. } => Some(destination),
            _ => None,
        }
    }

    /// Of plain numbers; those that its sort does not use are not looked at.
    pub(crate) fn of(sort: Sort, forward: u8, destination: u16) -> Option<Ask> {
        let forward = Forward::of(forward);
        Some(match sort {
            Sort::Activation => Ask::Activation {
                forward: forward?,
                destination: Number::new(destination)?,
            },
            Sort::Deactivation => Ask::Deactivation { forward: forward? },
            Sort::Interrogation => Ask::Interrogation { forward: forward? },
            Sort::Check => Ask::Check,
        })
    }
}

/// A request of ours to another panel that nobody has answered yet.
#[derive(Clone, Copy, Debug, PartialEq, Eq)]
pub struct Pending {
    /// The identifier that its result or error will bear; not 0.
    pub identifier: u16,
    /// When it was sent, in ms; [`Sort::time`] later a clock event ends it.
    pub start: u64,
}

/// The same as it lies in a station.
#[derive(Clone, Copy)]
#[repr(C)]
pub struct Plain {
    start: u64,
    identifier: u16,
    wait: u8,
    /// Not told by the library, which may leave it unwritten.
    padding: [MaybeUninit<u8>; 5],
}

/// What a station holds: a request of each sort, a destination for each type, marks.
#[derive(Clone, Copy)]
#[repr(C)]
pub struct Remote {
    pending: [Plain; 4],
    kept: [u16; 3],
    pub enabled: u8,
    pub allowed: u8,
}

lies!(Plain, 16, start 0 identifier 8 wait 10 padding 11);
lies!(Remote, 72, pending 0 kept 64 enabled 70 allowed 71);

impl Plain {
    const NONE: Plain = Plain {
        start: 0,
        identifier: 0,
        wait: 0,
        padding: [MaybeUninit::new(0); 5],
    };
}

impl Remote {
    /// Nothing pending and nothing kept.
    pub const fn marked(enabled: bool, allowed: bool) -> Remote {
        Remote {
            pending: [Plain::NONE; 4],
            kept: [0; 3],
            enabled: enabled as u8,
            allowed: allowed as u8,
        }
    }

    pub const fn pending(&self, sort: Sort) -> Option<Pending> {
        match &self.pending[sort as usize] {
            Plain {
                start,
                identifier,
                wait: 1,
                ..
            } => Some(Pending {
                identifier: *identifier,
                start: *start,
            }),
            _ => None,
        }
    }

    pub const fn kept(&self, forward: Forward) -> Option<Number> {
        Number::new(self.kept[forward as usize - 1])
    }

    /// As it lies in memory; padding is 0.
    pub fn to_bytes(self) -> [u8; 72] {
        let mut bytes = [0; 72];
        for (place, p) in bytes.chunks_exact_mut(16).zip(self.pending) {
            place[..8].copy_from_slice(&p.start.to_ne_bytes());
            place[8..10].copy_from_slice(&p.identifier.to_ne_bytes());
            place[10] = p.wait;
        }
        for (place, number) in bytes[64..70].chunks_exact_mut(2).zip(self.kept) {
            place.copy_from_slice(&number.to_ne_bytes());
        }
        (bytes[70], bytes[71]) = (self.enabled, self.allowed);
        bytes
    }

    pub fn from_bytes(bytes: &[u8; 72]) -> Remote {
        let two = |at: usize| u16::from_ne_bytes([bytes[at], bytes[at + 1]]);
        let pending = |at: usize| {
            let mut start = [0; 8];
            start.copy_from_slice(&bytes[at..at + 8]);
            Plain {
                start: u64::from_ne_bytes(start),
                identifier: two(at + 8),
                wait: bytes[at + 10],
                ..Plain::NONE
            }
        };
        Remote {
            pending: [0, 16, 32, 48].map(pending),
            kept: [64, 66, 68].map(two),
            enabled: bytes[70],
            allowed: bytes[71],
        }
    }
}
