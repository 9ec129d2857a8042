//! What waits on a call while its second leg is tried.

use crate::raw::lies;
use crate::{Choice, Number, Reason, MOST_WAITING};

/// A divertingLegInformation1 that waits: why the call is diverted, what the caller
/// may be told of it, and to which number.
#[derive(Clone, Copy, Debug, PartialEq, Eq)]
#[allow(missing_docs)] // fields that are named by what they hold
pub struct Dli1 {
    pub reason: Reason,
    pub option: Choice,
    pub number: Number,
}

/// The same as it lies in a record.
#[derive(Clone, Copy)]
#[repr(C)]
pub struct Plain {
    reason: u8,
    option: u8,
    number: u16,
}

/// The first on no reply, and those behind it; all 0 where none waits.
#[derive(Clone, Copy)]
#[repr(C)]
pub struct Waits {
    first: Plain,
    count: u8,
    /// Not told by the library: whatever stands here.
    pub padding: u8,
    later: [Plain; MOST_WAITING - 1],
}

lies!(Plain, 4, reason 0 option 1 number 2);
lies!(Waits, 62, first 0 count 4 padding 5 later 6);

impl Plain {
    const NONE: Plain = Plain {
        reason: 0,
        option: 0,
        number: 0,
    };

    /// None of number 0, or of an option that there is not.
    fn read(self) -> Option<Dli1> {
        Some(Dli1 {
            reason: Reason::of(self.reason),
            option: Choice::of(self.option)?,
            number: Number::new(self.number)?,
        })
    }
}

impl Waits {
    pub const NONE: Waits = Waits {
        first: Plain::NONE,
        count: 0,
        padding: 0,
        later: [Plain::NONE; MOST_WAITING - 1],
    };

    /// The number of the last one. A damaged count is taken as the most.
    pub const fn last_number(&self) -> u16 {
        match self.count as usize {
            0 => self.first.number,
            count if count < MOST_WAITING => self.later[count - 1].number,
            _ => self.later[MOST_WAITING - 2].number,
        }
    }

    /// Those that wait, in their order.
    pub fn in_order(self) -> impl Iterator<Item = Dli1> {
        let later = self.later.into_iter().take(self.count.into());
        core::iter::once(self.first)
            .chain(later)
            .filter_map(Plain::read)
    }
}
