//! One event, in place, on a table that was tested.

use crate::answer::{bare, Answer, Message};
use crate::call::*;
use crate::event::{Event, Words};
use crate::remote::Remote;

#[derive(Clone, Copy, Debug, PartialEq)]
#[repr(C)]
pub struct Station {
    pub last: u64,
    pub next: u16,
    pub limit: u8,
    pub remote: Remote,
}

impl Station {
    pub fn fresh() -> Station {
        Station {
            last: 0,
            next: u16::MAX,
            limit: 15,
            remote: Remote::fresh(),
        }
    }

    /// `w` are the words of `e`.
    #[inline(always)]
    pub fn step(&mut self, table: &mut [Call], e: &Event, w: Words) -> Answer {
        if e.time < self.last {
            return Answer::refused(2);
        }
        let answer = match e.kind {
            1 if w.open() => open(table, outgoing(e)),
            2 if w.open() => open(table, incoming(e, 0)),
            3 if w.open_diverted() => open(table, incoming(e, WAIT)),
            4 if w.call_only() => on(table, e, INCOMING, |c| c.alerted(e)),
            5 if w.answer() => on(table, e, INCOMING, |c| c.answered(e)),
            6 if w.divert() => self.divert(table, e),
            7 if w.outcome() => on(table, e, INCOMING, |c| c.granted_by(e)),
            8 if w.outcome() => on(table, e, INCOMING, |c| c.turned_down_by(e)),
            9 if w.call_only() => on(table, e, INCOMING, |c| c.leg_failed(e)),
            10 if w.clock() => self.clock(table, e.time),
            11 if w.call_only() => ended(table, e),
            12 if w.reroute() => on(table, e, OUTGOING, |c| c.rerouted(e)),
            13 if w.inform() => on(table, e, OUTGOING, |c| c.informed(e)),
            14 if w.message() => on(table, e, OUTGOING, |c| c.message(e)),
            15 if w.call_only() => on(table, e, INCOMING, |c| c.left(e)),
            16..=19 if w.ask() => self.ask(table, e),
            20..=23 if w.asked() => self.remote.asked(e),
            24..=31 if w.settled() => self.remote.settled(e),
            _ => Answer::refused(3),
        };
        if answer.code == 0 {
            self.last = e.time;
        }
        answer
    }

    #[inline(always)]
    fn divert(&mut self, table: &mut [Call], e: &Event) -> Answer {
        let i = usize::from(e.call);
        let Some(c) = table.get(i).filter(|c| c.direction == INCOMING) else {
            return Answer::refused(4);
        };
        let fits = if e.reason == CFNR {
            RINGING
        } else {
            PROCEEDING
        };
        if c.basic != fits {
            return Answer::refused(10);
        }
        if c.cds == 1 || c.granted == 1 {
            return Answer::refused(11);
        }
        if c.counter >= self.limit {
            return Answer::refused(7);
        }
        let identifier = self.draw(table);
        table[i].request(e, identifier)
    }

    /// The first identifier from the next one on that no open request has. No
    /// other record has one.
    #[inline(always)]
    pub fn draw(&mut self, table: &[Call]) -> u16 {
        let far = self.remote.identifiers();
        let mut identifier = self.next;
        while table.iter().any(|c| c.identifier == identifier) || far.contains(&identifier) {
            identifier = after(identifier);
        }
        self.next = after(identifier);
        identifier
    }

    #[inline(always)]
    fn clock(&mut self, table: &mut [Call], time: u64) -> Answer {
        // T1 is the shortest
        let Some(latest) = time.checked_sub(T1) else {
            return Answer::refused(0);
        };
        let due = |c: &Call| c.cds == 1 && c.start <= latest;
        let Some(i) = table.iter().position(due) else {
            return self.remote.clock(time);
        };
        let c = &mut table[i];
        let identifier = u32::from(c.identifier);
        c.end_request();
        Answer {
            identifier,
            ..Answer::done(i as u8)
        }
    }
}

/// The identifier after one: 1 to 65,535 in a round.
#[inline(always)]
fn after(identifier: u16) -> u16 {
    identifier.wrapping_add(1).max(1)
}

/// What the event does to the call that it names, if that has the direction.
#[inline(always)]
fn on(
    table: &mut [Call],
    e: &Event,
    direction: u8,
    act: impl FnOnce(&mut Call) -> Answer,
) -> Answer {
    match table.get_mut(usize::from(e.call)) {
        Some(c) if c.direction == direction => act(c),
        _ => Answer::refused(4),
    }
}

#[inline(always)]
fn ended(table: &mut [Call], e: &Event) -> Answer {
    match table.get_mut(usize::from(e.call)) {
        Some(c) if c.direction != FREE => c.ended(e),
        _ => Answer::refused(4),
    }
}

#[inline(always)]
fn outgoing(e: &Event) -> Call {
    Call {
        direction: OUTGOING,
        basic: PROCEEDING,
        party: e.first,
        ..Call::default()
    }
}

#[inline(always)]
fn incoming(e: &Event, cdf: u8) -> Call {
    Call {
        direction: INCOMING,
        basic: PROCEEDING,
        cdf,
        counter: e.counter,
        own: e.first,
        diverting: e.second,
        original: e.third,
        ..Call::default()
    }
}

#[inline(always)]
fn open(table: &mut [Call], call: Call) -> Answer {
    let Some(i) = table.iter().position(|c| c.direction == FREE) else {
        return Answer::refused(8);
    };
    table[i] = call;
    Answer::done(i as u8)
}

impl Call {
    /// Enters Requested, and sends the invoke.
    #[inline(always)]
    fn request(&mut self, e: &Event, identifier: u16) -> Answer {
        self.cds = 1;
        self.reason = e.reason;
        self.identifier = identifier;
        self.start = e.time;
        let counter = self.counter + 1;
        let original = if counter == 1 {
            0
        } else if self.original != 0 {
            self.original
        } else {
            self.diverting
        };
        let invoke = Message {
            reason: e.reason,
            option: e.option,
            counter,
            identifier,
            destination: e.second,
            diverting: self.own,
            original,
            ..bare(b'I', 1)
        };
        Answer {
            identifier: u32::from(identifier),
            counter,
            ..Answer::sending(e.call, invoke)
        }
    }
}
