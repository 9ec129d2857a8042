//! The DLI1s that wait in Invoked until leg 2 takes over (02, Six).

use crate::codes::CFNR;
use crate::event::Event;
use std::fmt;

/// "Up to 15 may wait, the first cfnr one included."
pub const MOST_LATER: usize = 14;

/// One DLI1: reason, option and nominated number.
#[derive(Clone, Copy, Default, PartialEq, Eq, Hash)]
pub struct Dli1 {
    pub reason: u8,
    pub option: u8,
    pub number: u16,
}

/// What waits, in the order in which it came. All 0 when nothing waits.
#[derive(Clone, Copy, Default, PartialEq, Eq, Hash)]
pub struct Waits {
    /// The one of the cfnr invoke.
    pub first: Dli1,
    /// How many wait behind the first.
    pub count: u8,
    /// Those of the cfu and cfb invokes on leg 2.
    pub later: [Dli1; MOST_LATER],
}

impl Dli1 {
    /// The DLI1 of kind 12 or 13.
    pub fn of(event: &Event) -> Dli1 {
        Dli1 {
            reason: event.reason,
            option: event.option,
            number: event.second,
        }
    }

    /// "the first cfnr, the others cfu or cfb"
    pub fn is_no_reply(&self) -> bool {
        self.reason == CFNR
    }
}

impl Waits {
    /// Only the first one waits.
    pub fn begun(first: Dli1) -> Waits {
        Waits {
            first,
            ..Waits::default()
        }
    }

    /// The places in use behind the first; a count may be any number.
    pub fn used(&self) -> &[Dli1] {
        &self.later[..usize::from(self.count).min(MOST_LATER)]
    }

    /// The places behind those in use.
    pub fn unused(&self) -> &[Dli1] {
        &self.later[self.used().len()..]
    }

    /// Nothing more may wait.
    pub fn is_full(&self) -> bool {
        self.unused().is_empty()
    }

    /// One more waits; there must be room.
    pub fn add(&mut self, dli1: Dli1) {
        self.later[usize::from(self.count)] = dli1;
        self.count += 1;
    }

    /// All that wait, "in order".
    pub fn in_order(&self) -> Vec<Dli1> {
        [&[self.first], self.used()].concat()
    }

    /// The last one's number: the party on leg 2.
    pub fn last_number(&self) -> u16 {
        self.used().last().unwrap_or(&self.first).number
    }
}

/// Reason, option and number, so that fifteen fit in a line.
impl fmt::Debug for Dli1 {
    fn fmt(&self, f: &mut fmt::Formatter) -> fmt::Result {
        write!(f, "{}/{}/{}", self.reason, self.option, self.number)
    }
}

/// Without the places at the end that are all 0.
impl fmt::Debug for Waits {
    fn fmt(&self, f: &mut fmt::Formatter) -> fmt::Result {
        let none = Dli1::default();
        let said = self.later.iter().rposition(|later| *later != none);
        let later = &self.later[..said.map_or(0, |at| at + 1)];
        write!(f, "{:?} and {}: {later:?}", self.first, self.count)
    }
}
