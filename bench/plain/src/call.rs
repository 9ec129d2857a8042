//! Call records.

#[derive(Clone, Copy, Debug, Default, PartialEq)]
#[repr(C)]
pub struct Call {
    pub direction: u8,
    pub basic: u8,
    pub cdo: u8,
    pub cdr: u8,
    pub cds: u8,
    pub cdf: u8,
    pub granted: u8,
    pub counter: u8,
    pub start: u64,
    pub party: u16,
    pub seen: u8,
    pub strictest: u8,
    pub forbidden: u8,
    pub shown: u8,
    pub nominated: u16,
    pub own: u16,
    pub diverting: u16,
    pub original: u16,
    pub identifier: u16,
    pub reason: u8,
    pub unused: Unused,
    pub first: Dli1,
    /// How many of `later` wait behind the first.
    pub count: u8,
    pub unused_too: Unused,
    pub later: [Dli1; LATER],
}

/// One that waits with leg 2.
#[derive(Clone, Copy, Debug, Default, PartialEq)]
#[repr(C)]
pub struct Dli1 {
    pub reason: u8,
    pub option: u8,
    pub number: u16,
}

/// Most that wait behind the first.
pub const LATER: usize = 14;

/// A byte that is no field: named, so that each byte of a record has a value, and
/// equal whatever it is.
#[derive(Clone, Copy, Debug, Default)]
#[repr(C)]
pub struct Unused(pub u8);

impl PartialEq for Unused {
    fn eq(&self, _: &Unused) -> bool {
        true
    }
}

/// Words of a record.
pub const WORDS: usize = 12;

impl Call {
    /// The record as it lies in memory.
    #[inline(always)]
    #[allow(unsafe_code)]
    pub fn words(&self) -> &[u64; WORDS] {
        // SAFETY: both are 96 bytes of plain numbers, without padding, and a record
        // is aligned as a word is.
        unsafe { &*(self as *const Call).cast() }
    }
}

const _: () = assert!(size_of::<Call>() == 8 * WORDS && align_of::<Call>() == align_of::<u64>());

pub const FREE: u8 = 0;
pub const OUTGOING: u8 = 1;
pub const INCOMING: u8 = 2;
pub const PROCEEDING: u8 = 1;
/// Delivered or Received.
pub const RINGING: u8 = 2;
pub const ACTIVE: u8 = 3;
pub const WAIT: u8 = 1;
pub const DONE: u8 = 2;
pub const CFNR: u8 = 3;
/// How long a request waits for its answer, in ms.
pub const T1: u64 = 10_000;
