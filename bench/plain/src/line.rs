//! One line of the printout.

use crate::answer::Answer;

/// The longest line: 20 digits, eight columns, three messages.
pub const LONGEST: usize = 80;

/// The digits of 0 to 99, two each.
const PAIRS: [[u8; 2]; 100] = {
    let mut pairs = [[0; 2]; 100];
    let mut i = 0;
    while i < 100 {
        pairs[i] = [b'0' + (i / 10) as u8, b'0' + (i % 10) as u8];
        i += 1;
    }
    pairs
};

/// Writes the digits in place, from the last pair on.
#[inline]
fn number(out: &mut [u8], at: usize, mut value: u64) -> usize {
    if value < 10 {
        out[at] = b'0' + value as u8;
        return at + 1;
    }
    let end = at + 1 + value.ilog10() as usize;
    let mut place = end;
    while value >= 10 {
        place -= 2;
        out[place..place + 2].copy_from_slice(&PAIRS[(value % 100) as usize]);
        value /= 100;
    }
    if value > 0 {
        out[at] = b'0' + value as u8;
    }
    end
}

#[inline]
fn column(out: &mut [u8], at: usize, value: u32, none: u32) -> usize {
    out[at] = b' ';
    if value == none {
        out[at + 1] = b'-';
        return at + 2;
    }
    number(out, at + 1, u64::from(value))
}

/// Writes the line; hands back its length. `out` has room for the longest.
#[inline]
pub fn write(out: &mut [u8], position: u64, a: &Answer) -> usize {
    let mut at = number(out, 0, position);
    out[at] = b' ';
    at = number(out, at + 1, u64::from(a.code));
    at = column(out, at, u32::from(a.call), 255);
    at = column(out, at, u32::from(a.notice), 255);
    at = column(out, at, u32::from(a.number), 0);
    at = column(out, at, a.identifier, 65536);
    at = column(out, at, u32::from(a.counter), 0);
    out[at] = b' ';
    at += 1;
    if a.sent[0].letter == 0 {
        out[at] = b'-';
        at += 1;
    }
    for message in &a.sent {
        if message.letter != 0 {
            out[at] = message.letter;
            at += 1;
            // small letters have none
            if message.leg != 0 {
                out[at] = b'0' + message.leg;
                at += 1;
            }
        }
    }
    out[at] = b'\n';
    at + 1
}
