//! What the station keeps beside the lent table.

use crate::codes::{MOST_DIVERSIONS, SHORT_LIMIT};
use crate::record::Record;
use crate::remote::{Pending, Remote};
use std::iter;

#[derive(Clone, Copy, Debug, Default, PartialEq, Eq, Hash)]
pub struct Station {
    /// The time of the last done event, in ms.
    pub last_time: u64,
    pub next_identifier: u16,
    pub limit: u8,
    /// Remote activation and what belongs to it (02, Seven).
    pub remote: Remote,
}

/// How many fields a station has.
pub const COUNT: usize = 20;

/// Each field's name and width in bits, in the order of `values`.
pub const FIELDS: [(&str, u32); COUNT] = {
    let mut fields = [("last_time", 64); COUNT];
    fields[1] = ("next_identifier", 16);
    fields[2] = ("limit", 8);
    let mut at = 3;
    while at < 15 {
        fields[at] = [("wait", 8), ("identifier", 16), ("start", 64)][at % 3];
        at += 1;
    }
    while at < 18 {
        fields[at] = ("kept", 16);
        at += 1;
    }
    fields[18] = ("enabled", 8);
    fields[19] = ("allowed", 8);
    fields
};

/// The identifier after this one: "From now on the number after 65,535 is 1"
/// (02, Three).
pub fn after(identifier: u16) -> u16 {
    identifier.checked_add(1).unwrap_or(1)
}

impl Station {
    /// Every field in order, widened.
    pub fn values(&self) -> [u64; COUNT] {
        let mut values = [0; COUNT];
        values[0] = self.last_time;
        values[1] = self.next_identifier.into();
        values[2] = self.limit.into();
        for (place, pending) in values[3..15].chunks_mut(3).zip(&self.remote.pending) {
            let three = [
                pending.wait.into(),
                pending.identifier.into(),
                pending.start,
            ];
            place.copy_from_slice(&three);
        }
        values[15..18].copy_from_slice(&self.remote.kept.map(u64::from));
        values[18] = self.remote.enabled.into();
        values[19] = self.remote.allowed.into();
        values
    }

    /// The station with these fields, each cut to its width.
    pub fn from_values(values: &[u64; COUNT]) -> Station {
        let pending = |at: usize| Pending {
            wait: values[at] as u8,
            identifier: values[at + 1] as u16,
            start: values[at + 2],
        };
        Station {
            last_time: values[0],
            next_identifier: values[1] as u16,
            limit: values[2] as u8,
            remote: Remote {
                pending: std::array::from_fn(|sort| pending(3 + 3 * sort)),
                kept: std::array::from_fn(|at| values[15 + at] as u16),
                enabled: values[18] as u8,
                allowed: values[19] as u8,
            },
        }
    }

    /// "Fresh means last time 0, next identifier 65,535." A limit outside 1
    /// to 15 is refused with 3 and "no station is made"; so is a mark above 1.
    /// "a fresh station takes both [marks]" (02, Seven)
    pub fn fresh(limit: u8, enabled: u8, allowed: u8) -> Result<Station, u8> {
        if !(1..=MOST_DIVERSIONS).contains(&limit) || enabled > 1 || allowed > 1 {
            return Err(3);
        }
        Ok(Station {
            last_time: 0,
            next_identifier: u16::MAX,
            limit,
            remote: Remote::fresh(enabled, allowed),
        })
    }

    /// A fresh station whose limit nobody names, with both marks set.
    pub fn short() -> Station {
        Station {
            last_time: 0,
            next_identifier: u16::MAX,
            limit: SHORT_LIMIT,
            remote: Remote::fresh(1, 1),
        }
    }

    /// Whether an open request of either table has this identifier: "These
    /// requests draw identifiers from the same station" (02, Seven).
    fn is_open(&self, table: &[Record], id: u16) -> bool {
        table
            .iter()
            .any(|record| record.is_requested() && record.identifier == id)
            || self.remote.has_open(id)
    }

    /// "The request takes the first identifier from the next one on that no
    /// open request has". 68 open requests cannot have all 65,535.
    pub fn free_identifier(&self, table: &[Record]) -> u16 {
        iter::successors(Some(self.next_identifier), |&id| Some(after(id)))
            .take(usize::from(u16::MAX))
            .find(|&id| !self.is_open(table, id))
            .unwrap_or(self.next_identifier)
    }

    /// Takes that identifier; "the one after it is next".
    pub fn draw_identifier(&mut self, table: &[Record]) -> u16 {
        let identifier = self.free_identifier(table);
        self.next_identifier = after(identifier);
        identifier
    }
}
