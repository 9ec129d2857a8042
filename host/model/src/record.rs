//! One call record as plain numbers. Any value may be handed in.

use crate::codes::*;
use crate::waits::{Dli1, Waits, MOST_LATER};

/// A call record; the first part belongs to outgoing calls, the second to
/// incoming ones, and what waits to outgoing ones again. The codes are in
/// `codes`.
#[derive(Clone, Copy, Debug, Default, PartialEq, Eq, Hash)]
pub struct Record {
    /// 0 free, 1 outgoing, 2 incoming.
    pub direction: u8,
    /// 0 none, 1 Proceeding, 2 Delivered or Received, 3 Active.
    pub basic: u8,
    /// 0 Idle, 1 Divert.
    pub cdo: u8,
    /// 0 Idle, 1 Invoked.
    pub cdr: u8,
    /// The party on leg 1.
    pub leg1: u16,
    /// History: a DLI1 was seen.
    pub seen: u8,
    /// History: the strictest option.
    pub strictest: u8,
    /// History: a forbidden DLI3 was seen.
    pub forbidden: u8,
    /// History: a number was shown, since the last DLI1 with reason cfnr.
    pub shown: u8,
    /// History: the last nominated number.
    pub nominated: u16,

    /// 0 Idle, 1 Requested.
    pub cds: u8,
    /// 0 none, 1 Wait, 2 done.
    pub cdf: u8,
    pub own: u16,
    pub counter: u8,
    pub diverting: u16,
    pub original: u16,
    /// The reason of an open request or of a grant.
    pub reason: u8,
    pub identifier: u16,
    /// T1 start.
    pub start: u64,
    pub granted: u8,

    /// The DLI1s that wait in Invoked.
    pub waits: Waits,
}

/// Fields before those of what waits.
pub const PLAIN: usize = 20;

/// How many fields a record has.
pub const COUNT: usize = PLAIN + 4 + 3 * MOST_LATER;

/// The fields before those of what waits, with their widths.
const PLAIN_FIELDS: [(&str, u32); PLAIN] = [
    ("direction", 8),
    ("basic", 8),
    ("cdo", 8),
    ("cdr", 8),
    ("leg1", 16),
    ("seen", 8),
    ("strictest", 8),
    ("forbidden", 8),
    ("shown", 8),
    ("nominated", 16),
    ("cds", 8),
    ("cdf", 8),
    ("own", 16),
    ("counter", 8),
    ("diverting", 16),
    ("original", 16),
    ("reason", 8),
    ("identifier", 16),
    ("start", 64),
    ("granted", 8),
];

/// Those of one DLI1 that waits.
const DLI1_FIELDS: [(&str, u32); 3] = [
    ("waiting_reason", 8),
    ("waiting_option", 8),
    ("waiting_number", 16),
];

/// Each field's name and width in bits, in the order of `values`.
pub const FIELDS: [(&str, u32); COUNT] = {
    let mut fields = [("count", 8); COUNT];
    let mut at = 0;
    while at < COUNT {
        if at < PLAIN {
            fields[at] = PLAIN_FIELDS[at];
        } else if at < PLAIN + 3 {
            fields[at] = DLI1_FIELDS[at - PLAIN];
        } else if at > PLAIN + 3 {
            fields[at] = DLI1_FIELDS[(at - PLAIN - 4) % 3];
        }
        at += 1;
    }
    fields
};

impl Record {
    /// Every field in order, widened: the first DLI1 that waits, the count,
    /// and the places behind it come last.
    pub fn values(&self) -> [u64; COUNT] {
        let mut values = [0; COUNT];
        values[..PLAIN].copy_from_slice(&self.plain_values());
        let three = |dli1: &Dli1| [dli1.reason.into(), dli1.option.into(), dli1.number.into()];
        values[PLAIN..PLAIN + 3].copy_from_slice(&three(&self.waits.first));
        values[PLAIN + 3] = self.waits.count.into();
        for (place, later) in values[PLAIN + 4..].chunks_mut(3).zip(&self.waits.later) {
            place.copy_from_slice(&three(later));
        }
        values
    }

    fn plain_values(&self) -> [u64; PLAIN] {
        [
            self.direction.into(),
            self.basic.into(),
            self.cdo.into(),
            self.cdr.into(),
            self.leg1.into(),
            self.seen.into(),
            self.strictest.into(),
            self.forbidden.into(),
            self.shown.into(),
            self.nominated.into(),
            self.cds.into(),
            self.cdf.into(),
            self.own.into(),
            self.counter.into(),
            self.diverting.into(),
            self.original.into(),
            self.reason.into(),
            self.identifier.into(),
            self.start,
            self.granted.into(),
        ]
    }

    /// The record with these fields, each cut to its width.
    pub fn from_values(values: &[u64; COUNT]) -> Record {
        Record {
            direction: values[0] as u8,
            basic: values[1] as u8,
            cdo: values[2] as u8,
            cdr: values[3] as u8,
            leg1: values[4] as u16,
            seen: values[5] as u8,
            strictest: values[6] as u8,
            forbidden: values[7] as u8,
            shown: values[8] as u8,
            nominated: values[9] as u16,
            cds: values[10] as u8,
            cdf: values[11] as u8,
            own: values[12] as u16,
            counter: values[13] as u8,
            diverting: values[14] as u16,
            original: values[15] as u16,
            reason: values[16] as u8,
            identifier: values[17] as u16,
            start: values[18],
            granted: values[19] as u8,
            waits: waits_from(&values[PLAIN..]),
        }
    }

    pub fn is_free(&self) -> bool {
        self.direction == FREE
    }

    pub fn is_invoked(&self) -> bool {
        self.cdr == INVOKED
    }

    pub fn is_requested(&self) -> bool {
        self.cds == REQUESTED
    }

    pub fn is_granted(&self) -> bool {
        self.granted == 1
    }

    /// The forwarded party, which is the last nominated number that waits; 0
    /// outside Invoked.
    pub fn leg2(&self) -> u16 {
        self.waits.last_number()
    }
}

/// What waits, from the fields behind the plain ones.
fn waits_from(values: &[u64]) -> Waits {
    let dli1 = |at: usize| Dli1 {
        reason: values[at] as u8,
        option: values[at + 1] as u8,
        number: values[at + 2] as u16,
    };
    Waits {
        first: dli1(0),
        count: values[3] as u8,
        later: std::array::from_fn(|at| dli1(4 + 3 * at)),
    }
}
