//! Event records: 24 bytes each, big-endian.

use crate::codes::*;

/// Bytes of one event record.
pub const SIZE: usize = 24;

/// One event record as plain numbers.
#[derive(Clone, Copy, Debug, Default, PartialEq, Eq, Hash)]
pub struct Event {
    pub kind: u8,
    pub call: u8,
    pub leg: u8,
    pub message: u8,
    pub reason: u8,
    pub option: u8,
    pub counter: u8,
    pub flag: u8,
    pub identifier: u16,
    pub first: u16,
    pub second: u16,
    pub third: u16,
    pub time: u64,
}

/// Lowest and highest value of a byte field.
type Range = (u8, u8);

/// "A field that a kind doesn't use is 0."
const UNUSED: Range = (0, 0);

/// How a kind uses a number or identifier field; an absent number is 0.
#[derive(Clone, Copy)]
enum Number {
    Unused,
    Any,
    NotZero,
}

impl Number {
    fn fits(self, value: u16) -> bool {
        match self {
            Number::Unused => value == 0,
            Number::Any => true,
            Number::NotZero => value != 0,
        }
    }
}

/// One row of the page's table of kinds.
struct Row {
    call: bool,
    leg: Range,
    message: Range,
    reason: Range,
    option: Range,
    counter: Range,
    flag: Range,
    identifier: Number,
    first: Number,
    second: Number,
    third: Number,
}

/// The row of a kind that uses nothing but the time.
const NOTHING: Row = Row {
    call: false,
    leg: UNUSED,
    message: UNUSED,
    reason: UNUSED,
    option: UNUSED,
    counter: UNUSED,
    flag: UNUSED,
    identifier: Number::Unused,
    first: Number::Unused,
    second: Number::Unused,
    third: Number::Unused,
};

/// The row of a kind that uses the call alone.
const CALL: Row = Row {
    call: true,
    ..NOTHING
};

fn row_of_opens_and_users(kind: u8) -> Option<Row> {
    Some(match kind {
        OPEN_OUTGOING | OPEN_INCOMING => Row {
            first: Number::NotZero,
            ..NOTHING
        },
        OPEN_DIVERTED => Row {
            first: Number::NotZero,
            reason: (0, 3),
            counter: (1, MOST_DIVERSIONS),
            second: Number::Any,
            third: Number::Any,
            ..NOTHING
        },
        USER_ANSWERS => Row {
            flag: (0, 1),
            ..CALL
        },
        USER_DIVERTS => Row {
            reason: (1, 3),
            option: (0, 2),
            second: Number::NotZero,
            ..CALL
        },
        USER_ALERTED | LEG_FAILED | OWN_END | FAR_END => CALL,
        CLOCK => NOTHING,
        _ => return None,
    })
}

fn row_of_received(kind: u8) -> Option<Row> {
    Some(match kind {
        // "a kind 7 or 8 event with identifier 0 is 3" (02, Three)
        RESULT | ERROR => Row {
            identifier: Number::NotZero,
            ..CALL
        },
        REROUTE => Row {
            leg: (1, 2),
            reason: (1, 3),
            option: (0, 2),
            counter: (1, MOST_DIVERSIONS),
            // "Received invokes may still bear 0 and it is echoed." (02, Three)
            identifier: Number::Any,
            second: Number::NotZero,
            third: Number::Any,
            ..CALL
        },
        DLI1 => Row {
            reason: (0, 3),
            option: (0, 2),
            second: Number::NotZero,
            ..CALL
        },
        MESSAGE => Row {
            leg: (1, 2),
            message: (FACILITY, RELEASE_COMPLETE),
            flag: (NO_DLI3, DLI3_FORBIDDEN),
            second: Number::Any,
            ..CALL
        },
        _ => return None,
    })
}

/// "16 to 23 use first (far panel, not 0), reason (type 1 to 3) except in a
/// check, and in activation second (destination, not 0); 20 to 31 use
/// identifier, 26 also second (not 0)." (02, Seven)
fn row_of_remote(kind: u8) -> Option<Row> {
    if !(ACTIVATION_REQUEST..=CHECK_ERROR).contains(&kind) {
        return None;
    }
    let mut row = NOTHING;
    if kind <= CHECK_INVOKE {
        row.first = Number::NotZero;
        if !matches!(kind, CHECK_REQUEST | CHECK_INVOKE) {
            row.reason = (CFU, CFNR);
        }
    }
    if kind >= ACTIVATION_INVOKE {
        row.identifier = Number::Any;
    }
    if matches!(
        kind,
        ACTIVATION_REQUEST | ACTIVATION_INVOKE | INTERROGATION_RESULT
    ) {
        row.second = Number::NotZero;
    }
    Some(row)
}

impl Row {
    fn fits(&self, event: &Event) -> bool {
        let within = |value: u8, range: Range| range.0 <= value && value <= range.1;
        (self.call || event.call == 0)
            && within(event.leg, self.leg)
            && within(event.message, self.message)
            && within(event.reason, self.reason)
            && within(event.option, self.option)
            && within(event.counter, self.counter)
            && within(event.flag, self.flag)
            && self.identifier.fits(event.identifier)
            && self.first.fits(event.first)
            && self.second.fits(event.second)
            && self.third.fits(event.third)
    }
}

impl Event {
    /// Reads a record, whatever its bytes.
    pub fn decode(bytes: &[u8; SIZE]) -> Event {
        let two = |at: usize| u16::from_be_bytes([bytes[at], bytes[at + 1]]);
        let mut time = [0; 8];
        time.copy_from_slice(&bytes[16..]);
        Event {
            kind: bytes[0],
            call: bytes[1],
            leg: bytes[2],
            message: bytes[3],
            reason: bytes[4],
            option: bytes[5],
            counter: bytes[6],
            flag: bytes[7],
            identifier: two(8),
            first: two(10),
            second: two(12),
            third: two(14),
            time: u64::from_be_bytes(time),
        }
    }

    /// Writes the record that `decode` reads back as this event.
    pub fn encode(&self) -> [u8; SIZE] {
        let mut bytes = [0; SIZE];
        bytes[..8].copy_from_slice(&[
            self.kind,
            self.call,
            self.leg,
            self.message,
            self.reason,
            self.option,
            self.counter,
            self.flag,
        ]);
        let numbers = [self.identifier, self.first, self.second, self.third];
        for (place, number) in bytes[8..16].chunks_exact_mut(2).zip(numbers) {
            place.copy_from_slice(&number.to_be_bytes());
        }
        bytes[16..].copy_from_slice(&self.time.to_be_bytes());
        bytes
    }

    /// A kind of 1 to 31 whose fields agree with the page's table.
    pub fn well_made(&self) -> bool {
        row_of_opens_and_users(self.kind)
            .or_else(|| row_of_received(self.kind))
            .or_else(|| row_of_remote(self.kind))
            .is_some_and(|row| row.fits(self))
            && (self.kind != MESSAGE || self.message_fits())
    }

    /// "FACILITY needs flag 1 or 2; RELEASE COMPLETE needs flag 0", and the
    /// number of kind 14 is "0 when flag is 0".
    fn message_fits(&self) -> bool {
        let flag_fits = match self.message {
            FACILITY => self.flag != NO_DLI3,
            RELEASE_COMPLETE => self.flag == NO_DLI3,
            _ => true,
        };
        flag_fits && (self.flag != NO_DLI3 || self.second == 0)
    }
}
