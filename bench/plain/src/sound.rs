//! The test behind number 1.

use crate::call::*;
use crate::station::Station;

/// Whether the table may be worked on. A done event keeps it so.
pub fn sound(table: &[Call], station: &Station) -> bool {
    if !(1..=64).contains(&table.len())
        || !(1..=15).contains(&station.limit)
        || station.next == 0
        || !station.remote.marks_hold()
    {
        return false;
    }
    let mut marks = Marks([0; 16]);
    if station.remote.any() {
        if !station.remote.pendings_hold(station.last) {
            return false;
        }
        for identifier in station.remote.identifiers() {
            if identifier != 0 {
                marks.set(identifier);
            }
        }
    }
    for (i, call) in table.iter().enumerate() {
        if !call.sound(station.last) {
            return false;
        }
        // A mark may be another identifier's; the records before this one are sound.
        let identifier = call.identifier;
        if identifier != 0
            && marks.set(identifier)
            && (station.remote.identifiers().contains(&identifier)
                || table[..i].iter().any(|c| c.identifier == identifier))
        {
            return false;
        }
    }
    true
}

/// A bit for each identifier modulo 1024.
struct Marks([u64; 16]);

impl Marks {
    /// Hands back whether it was set before.
    #[inline]
    fn set(&mut self, identifier: u16) -> bool {
        let word = &mut self.0[usize::from(identifier >> 6 & 15)];
        let bit = 1 << (identifier & 63);
        let before = *word & bit != 0;
        *word |= bit;
        before
    }
}

/// A record's words on a little-endian machine, for tests of several fields at
/// once. What each method hands back is 0 where all its fields are.
struct Words {
    codes: u64,
    start: u64,
    /// Party and history.
    legs: u64,
    /// Own, diverting, original, identifier.
    numbers: u64,
    /// The reason, and the first that waits with the count.
    rest: u64,
    /// All that wait behind the first, in one.
    later: u64,
}

impl Words {
    #[inline(always)]
    fn of(call: &Call) -> Words {
        let [codes, start, legs, numbers, rest, later @ ..] = call.words();
        Words {
            codes: *codes,
            start: *start,
            legs: *legs,
            numbers: *numbers,
            // without the bytes that are no field
            rest: rest & 0x00ff_ffff_ffff_00ff,
            later: later.iter().fold(0, |all, word| all | word),
        }
    }

    fn all(&self) -> u64 {
        self.codes | self.start | self.legs | self.numbers | self.rest | self.later
    }

    /// What only an outgoing call has.
    fn outgoing(&self) -> u64 {
        self.codes & 0xffff_0000 | self.legs | self.waiting()
    }

    /// What only an incoming call has.
    fn incoming(&self) -> u64 {
        self.codes >> 32 | self.start | self.numbers | self.rest & 0xff
    }

    /// What waits, with its count.
    fn waiting(&self) -> u64 {
        self.rest >> 16 | self.later
    }

    /// Seen, strictest, forbidden, shown, nominated.
    fn history(&self) -> u64 {
        self.legs >> 16
    }

    /// What is above 1 of forbidden and shown.
    fn above_marks(&self) -> u64 {
        self.legs & 0xfefe_0000_0000
    }

    /// Diverting and original.
    fn diverted(&self) -> u64 {
        self.numbers & 0xffff_ffff_0000
    }

    /// Identifier, reason and start.
    fn request(&self) -> u64 {
        self.numbers >> 48 | self.rest & 0xff | self.start
    }
}

impl Call {
    #[inline(always)]
    fn sound(&self, last: u64) -> bool {
        let w = Words::of(self);
        match self.direction {
            FREE => w.all() == 0,
            OUTGOING => {
                w.incoming() == 0
                    && self.party != 0
                    && self.waiting_holds(&w)
                    && self.history_holds(&w)
            }
            INCOMING => {
                w.outgoing() == 0
                    && self.own != 0
                    && self.diversion_holds(&w)
                    && self.request_holds(&w, last)
            }
            _ => false,
        }
    }

    #[inline(always)]
    fn basic_holds(&self) -> bool {
        (PROCEEDING..=ACTIVE).contains(&self.basic)
    }

    #[inline(always)]
    fn waiting_holds(&self, w: &Words) -> bool {
        match self.cdr {
            0 => w.waiting() == 0 && self.basic_holds(),
            1 => {
                self.basic == RINGING
                    && self.first.reason == CFNR
                    && self.first.holds()
                    && self.later_hold()
            }
            _ => false,
        }
    }

    /// Cfu or cfb as far as the count says, and nothing behind them.
    #[inline(always)]
    fn later_hold(&self) -> bool {
        let Some((used, unused)) = self.later.split_at_checked(usize::from(self.count)) else {
            return false;
        };
        used.iter()
            .all(|later| matches!(later.reason, 1 | 2) && later.holds())
            && unused.iter().all(|later| *later == Dli1::default())
    }

    #[inline(always)]
    fn history_holds(&self, w: &Words) -> bool {
        match self.seen {
            0 => w.history() | u64::from(self.cdo) == 0,
            1 => {
                self.strictest <= 2
                    && w.above_marks() == 0
                    && self.nominated != 0
                    && self.cdo == u8::from(self.basic != ACTIVE)
            }
            _ => false,
        }
    }

    #[inline(always)]
    fn diversion_holds(&self, w: &Words) -> bool {
        match self.counter {
            0 => u64::from(self.cdf) | w.diverted() == 0,
            1..=15 => self.cdf == DONE || (self.cdf == WAIT && self.basic != ACTIVE),
            _ => false,
        }
    }

    #[inline(always)]
    fn request_holds(&self, w: &Words, last: u64) -> bool {
        match (self.cds, self.granted) {
            (0, 0) => w.request() == 0 && self.basic_holds(),
            (1, 0) => self.reason_fits() && self.identifier != 0 && self.start <= last,
            (0, 1) => self.reason_fits() && u64::from(self.identifier) | self.start == 0,
            _ => false,
        }
    }

    /// Cfu and cfb in Proceeding, cfnr in Received.
    #[inline(always)]
    fn reason_fits(&self) -> bool {
        match self.basic {
            PROCEEDING => self.reason == 1 || self.reason == 2,
            RINGING => self.reason == CFNR,
            _ => false,
        }
    }
}

impl Dli1 {
    #[inline(always)]
    fn holds(&self) -> bool {
        self.option <= 2 && self.number != 0
    }
}
