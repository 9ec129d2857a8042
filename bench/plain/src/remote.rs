//! Forwards that are set from another panel: what the station holds of them, and
//! events of kinds 16 to 31. They touch no record, and are rare: none is inlined.

use crate::answer::{bare, echo, Answer, Message};
use crate::call::{Call, Unused};
use crate::event::Event;
use crate::station::Station;

/// A request of ours; all 0 where none waits.
#[derive(Clone, Copy, Debug, Default, PartialEq)]
#[repr(C)]
pub struct Pending {
    pub start: u64,
    pub identifier: u16,
    pub wait: u8,
    pub unused: [Unused; 5],
}

#[derive(Clone, Copy, Debug, Default, PartialEq)]
#[repr(C)]
pub struct Remote {
    /// By sort: activation, deactivation, interrogation, check.
    pub pending: [Pending; 4],
    /// The destination of each type, from cfu on; 0 is none.
    pub kept: [u16; 3],
    pub enabled: u8,
    pub allowed: u8,
}

/// T2 to T5, by sort, in ms.
const LENGTHS: [u64; 4] = [30_000, 15_000, 15_000, 15_000];
const INVOKES: [u8; 4] = *b"adic";
const ACTIVATION: usize = 0;
const DEACTIVATION: usize = 1;
const INTERROGATION: usize = 2;

/// The low two bits of its kind; the bits above them are what it is of the sort.
#[inline(always)]
fn sort(e: &Event) -> usize {
    usize::from(e.kind & 3)
}

impl Pending {
    /// 0 where all its fields are, on a little-endian machine.
    #[inline(always)]
    #[allow(unsafe_code)]
    fn all(&self) -> u64 {
        // SAFETY: both are 16 bytes of plain numbers, without padding.
        let [start, rest] = unsafe { std::mem::transmute::<Pending, [u64; 2]>(*self) };
        start | rest & 0xff_ffff
    }

    fn holds(&self, last: u64) -> bool {
        match self.wait {
            0 => self.start | u64::from(self.identifier) == 0,
            1 => self.identifier != 0 && self.start <= last,
            _ => false,
        }
    }
}

impl Remote {
    /// Nothing kept, nothing pending, both marks set.
    pub fn fresh() -> Remote {
        Remote {
            enabled: 1,
            allowed: 1,
            ..Remote::default()
        }
    }

    /// Whether one waits: the fields of all four at once.
    #[inline(always)]
    pub fn any(&self) -> bool {
        self.pending.iter().fold(0, |all, p| all | p.all()) != 0
    }

    #[inline(always)]
    pub fn marks_hold(&self) -> bool {
        (self.enabled | self.allowed) <= 1
    }

    /// But for the calls' identifiers.
    #[inline(never)]
    pub fn pendings_hold(&self, last: u64) -> bool {
        let [a, b, c, d] = self.identifiers();
        let apart = |one: u16, others: &[u16]| one == 0 || !others.contains(&one);
        self.pending.iter().all(|p| p.holds(last))
            && apart(a, &[b, c, d])
            && apart(b, &[c, d])
            && apart(c, &[d])
    }

    /// 0 where none waits.
    #[inline(always)]
    pub fn identifiers(&self) -> [u16; 4] {
        self.pending.map(|p| p.identifier)
    }

    /// Ends the first that is due, where no call's request is.
    #[inline(always)]
    pub fn clock(&mut self, time: u64) -> Answer {
        match self.any() {
            true => self.expire(time),
            false => Answer::refused(0),
        }
    }

    #[inline(never)]
    fn expire(&mut self, time: u64) -> Answer {
        let due = |(p, length): (&Pending, u64)| p.wait == 1 && time - p.start >= length;
        let Some(sort) = self.pending.iter().zip(LENGTHS).position(due) else {
            return Answer::refused(0);
        };
        let identifier = u32::from(self.pending[sort].identifier);
        self.pending[sort] = Pending::default();
        Answer {
            identifier,
            ..Answer::refused(0)
        }
    }

    /// The invoke of a far panel: kinds 20 to 23.
    #[inline(never)]
    pub fn asked(&mut self, e: &Event) -> Answer {
        let of_type = usize::from(e.reason).wrapping_sub(1);
        let mut destination = 0;
        let taken = match sort(e) {
            ACTIVATION => {
                if self.enabled == 1 {
                    self.kept[of_type] = e.second;
                }
                self.enabled == 1
            }
            DEACTIVATION => std::mem::take(&mut self.kept[of_type]) != 0,
            INTERROGATION => {
                destination = self.kept[of_type];
                destination != 0
            }
            _ => self.allowed == 1,
        };
        let letter = if taken { b'r' } else { b'e' };
        told(Message {
            destination,
            ..echo(letter, 0, e.identifier)
        })
    }

    /// An answer to ours, of whichever sort and outcome: kinds 24 to 31.
    #[inline(never)]
    pub fn settled(&mut self, e: &Event) -> Answer {
        let p = &mut self.pending[sort(e)];
        if p.wait == 0 {
            return Answer::refused(11);
        }
        if p.identifier != e.identifier {
            return Answer::refused(6);
        }
        *p = Pending::default();
        Answer::refused(0)
    }
}

impl Station {
    /// Our user's request: kinds 16 to 19.
    #[inline(never)]
    pub fn ask(&mut self, table: &[Call], e: &Event) -> Answer {
        let sort = sort(e);
        if self.remote.pending[sort].wait == 1 {
            return Answer::refused(9);
        }
        let identifier = self.draw(table);
        self.remote.pending[sort] = Pending {
            start: e.time,
            identifier,
            wait: 1,
            ..Pending::default()
        };
        told(Message {
            reason: e.reason,
            identifier,
            destination: e.second,
            number: e.first,
            ..bare(INVOKES[sort], 0)
        })
    }
}

/// Sent, about no call.
fn told(message: Message) -> Answer {
    Answer {
        identifier: u32::from(message.identifier),
        ..Answer::sending(255, message)
    }
}

const _: () = assert!(size_of::<Remote>() == 72 && size_of::<Station>() == 88);
