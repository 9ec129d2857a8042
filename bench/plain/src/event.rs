//! Event records and the table of kinds.

pub const SIZE: usize = 24;

#[derive(Clone, Copy, Debug, Default, PartialEq)]
#[repr(C)]
pub struct Event {
    pub kind: u8,
    pub call: u8,
    pub leg: u8,
    pub message: u8,
    pub reason: u8,
    pub option: u8,
    pub counter: u8,
    pub flag: u8,
    pub identifier: u16,
    pub first: u16,
    pub second: u16,
    pub third: u16,
    pub time: u64,
}

impl Event {
    #[inline]
    pub fn decode(b: &[u8; SIZE]) -> Event {
        let two = |i: usize| u16::from_be_bytes([b[i], b[i + 1]]);
        Event {
            kind: b[0],
            call: b[1],
            leg: b[2],
            message: b[3],
            reason: b[4],
            option: b[5],
            counter: b[6],
            flag: b[7],
            identifier: two(8),
            first: two(10),
            second: two(12),
            third: two(14),
            time: u64::from_be_bytes([b[16], b[17], b[18], b[19], b[20], b[21], b[22], b[23]]),
        }
    }

    #[inline]
    #[allow(unsafe_code)]
    pub fn words(self) -> Words {
        // SAFETY: both are 24 bytes of plain numbers, without padding.
        let [codes, numbers, _] = unsafe { std::mem::transmute::<Event, [u64; 3]>(self) };
        Words { codes, numbers }
    }
}

/// An event but for its time as two words, for tests of several fields at once.
/// Numbers are only held against 0, so their bytes may stand in either order.
#[derive(Clone, Copy)]
pub struct Words {
    codes: u64,
    numbers: u64,
}

const KIND: u64 = 0xff;
const CALL: u64 = 0xff << 8;
const LEG: u64 = 0xff << 16;
const MESSAGE: u64 = 0xff << 24;
const REASON: u64 = 0xff << 32;
const OPTION: u64 = 0xff << 40;
const COUNTER: u64 = 0xff << 48;
const FLAG: u64 = 0xff << 56;
const IDENTIFIER: u64 = 0xffff;
const FIRST: u64 = 0xffff << 16;
const SECOND: u64 = 0xffff << 32;

/// The bits that values up to `most`, a power of two less 1, have in these fields.
const fn up_to(most: u64, fields: u64) -> u64 {
    fields / 0xff * most
}

/// FACILITY with a DLI3, ALERTING and CONNECT with or without, RELEASE COMPLETE
/// without: bit 4 * message + flag.
const MESSAGES: u32 = 0b0110 << 4 | 0b0111 << 8 | 0b0111 << 12 | 0b0001 << 16;

impl Words {
    #[inline]
    pub fn of(record: &[u8; SIZE]) -> Words {
        let (words, _) = record.as_chunks();
        Words {
            codes: u64::from_le_bytes(words[0]),
            numbers: u64::from_le_bytes(words[1]),
        }
    }

    /// No bits but these among the codes.
    #[inline]
    fn only(self, bits: u64) -> bool {
        self.codes & !(KIND | bits) == 0
    }

    #[inline]
    fn has(self, field: u64) -> bool {
        self.codes & field != 0
    }

    /// Of the numbers this one, and no other.
    #[inline]
    fn one_number(self, field: u64) -> bool {
        self.numbers & !field == 0 && self.numbers != 0
    }

    #[inline]
    fn option_fits(self) -> bool {
        self.codes & OPTION != up_to(3, OPTION)
    }

    #[inline]
    fn leg_fits(self) -> bool {
        self.has(LEG) && self.codes & LEG != up_to(3, LEG)
    }

    /// Kinds 1 and 2.
    #[inline]
    pub fn open(self) -> bool {
        self.only(0) && self.one_number(FIRST)
    }

    /// Kind 3.
    #[inline]
    pub fn open_diverted(self) -> bool {
        self.only(up_to(3, REASON) | up_to(15, COUNTER))
            && self.has(COUNTER)
            && self.numbers & IDENTIFIER == 0
            && self.numbers & FIRST != 0
    }

    /// Kinds 4, 9, 11 and 15.
    #[inline]
    pub fn call_only(self) -> bool {
        self.only(CALL) && self.numbers == 0
    }

    /// Kind 5.
    #[inline]
    pub fn answer(self) -> bool {
        self.only(CALL | up_to(1, FLAG)) && self.numbers == 0
    }

    /// Kind 6.
    #[inline]
    pub fn divert(self) -> bool {
        self.inform() && self.has(REASON)
    }

    /// Kinds 7 and 8.
    #[inline]
    pub fn outcome(self) -> bool {
        self.only(CALL) && self.one_number(IDENTIFIER)
    }

    /// Kind 10.
    #[inline]
    pub fn clock(self) -> bool {
        self.only(0) && self.numbers == 0
    }

    /// Kind 12.
    #[inline]
    pub fn reroute(self) -> bool {
        self.only(CALL | up_to(3, LEG | REASON | OPTION) | up_to(15, COUNTER))
            && self.leg_fits()
            && self.has(REASON)
            && self.option_fits()
            && self.has(COUNTER)
            && self.numbers & FIRST == 0
            && self.numbers & SECOND != 0
    }

    /// Kind 13.
    #[inline]
    pub fn inform(self) -> bool {
        self.only(CALL | up_to(3, REASON | OPTION)) && self.option_fits() && self.one_number(SECOND)
    }

    /// Kinds 16, and with an identifier 20.
    #[inline]
    fn activation(self, identifier: u64) -> bool {
        self.typed()
            && self.numbers & !(identifier | FIRST | SECOND) == 0
            && self.numbers & FIRST != 0
            && self.numbers & SECOND != 0
    }

    /// A type of forward, and no other code.
    #[inline]
    fn typed(self) -> bool {
        self.only(up_to(3, REASON)) && self.has(REASON)
    }

    /// Of the numbers this one, perhaps an identifier, and no other.
    #[inline]
    fn one_number_with(self, identifier: u64, field: u64) -> bool {
        self.numbers & !(identifier | field) == 0 && self.numbers & field != 0
    }

    /// Kinds 16 to 19, and with an identifier 20 to 23.
    #[inline]
    fn panel(self, identifier: u64) -> bool {
        match self.codes & 3 {
            0 => self.activation(identifier),
            3 => self.only(0) && self.one_number_with(identifier, FIRST),
            _ => self.typed() && self.one_number_with(identifier, FIRST),
        }
    }

    /// Kinds 16 to 19.
    #[inline]
    pub fn ask(self) -> bool {
        self.panel(0)
    }

    /// Kinds 20 to 23.
    #[inline]
    pub fn asked(self) -> bool {
        self.panel(IDENTIFIER)
    }

    /// Kinds 24 to 31.
    #[inline]
    pub fn settled(self) -> bool {
        match self.codes & KIND {
            26 => self.only(0) && self.one_number_with(IDENTIFIER, SECOND),
            _ => self.only(0) && self.numbers & !IDENTIFIER == 0,
        }
    }

    /// Kind 14.
    #[inline]
    pub fn message(self) -> bool {
        let (message, flag) = (self.codes >> 24 & 7, self.codes >> 56 & 3);
        self.only(CALL | up_to(3, LEG | FLAG) | up_to(7, MESSAGE))
            && self.leg_fits()
            && MESSAGES >> (4 * message + flag) & 1 == 1
            && self.numbers & !SECOND == 0
            && (flag != 0 || self.numbers == 0)
    }
}
