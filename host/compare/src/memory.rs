//! How the library's structs lie in memory (`whipsail.h`), little-endian.

use crate::wire::{Answer, Board, Message, Ran, Rehearsed, Stepped};
use crate::{plans, tables::Told};
use model::codes::MOST_RECORDS;
use model::waits::MOST_LATER;
use model::{Dli1, Event, Record, Station, Waits};

pub use crate::stations::{put_station, STATION};

/// Sizes of the structs in bytes.
pub const EVENT: usize = 24;
pub const CALL: usize = 96;
pub const BOARD: usize = 6240;
pub const MADE: usize = 96;
pub const READ: usize = 32;
pub const RAN: usize = 6264;
pub const ANSWER: usize = 64;
pub const REHEARSED: usize = 6;

/// Of `whipsail_answer` and a board behind it.
pub const STEPPED: usize = ANSWER + BOARD;

/// Of `whipsail_told` and so many records behind it.
pub fn told(records: usize) -> usize {
    ANSWER + STATION + records * CALL
}

/// Of `whipsail_rehearsed` and so many numbers behind it.
pub fn rehearsed(numbers: usize) -> usize {
    REHEARSED + numbers * 2
}

/// Stands in padding, which nobody may read.
pub const PADDING: u8 = 0xEE;

pub fn twos(out: &mut Vec<u8>, values: &[u16]) {
    out.extend(values.iter().flat_map(|value| value.to_le_bytes()));
}

pub fn put_event(out: &mut Vec<u8>, e: &Event) {
    out.extend([e.kind, e.call, e.leg, e.message]);
    out.extend([e.reason, e.option, e.counter, e.flag]);
    twos(out, &[e.identifier, e.first, e.second, e.third]);
    out.extend(e.time.to_le_bytes());
}

fn put_dli1(out: &mut Vec<u8>, d: &Dli1) {
    out.extend([d.reason, d.option]);
    twos(out, &[d.number]);
}

pub fn put_call(out: &mut Vec<u8>, r: &Record) {
    let before = out.len();
    out.extend([r.direction, r.basic, r.cdo, r.cdr]);
    out.extend([r.cds, r.cdf, r.granted, r.counter]);
    out.extend(r.start.to_le_bytes());
    twos(out, &[r.leg1]);
    out.extend([r.seen, r.strictest, r.forbidden, r.shown]);
    twos(out, &[r.nominated]);
    twos(out, &[r.own, r.diverting, r.original, r.identifier]);
    out.extend([r.reason, PADDING]);
    put_dli1(out, &r.waits.first);
    out.extend([r.waits.count, PADDING]);
    r.waits.later.iter().for_each(|later| put_dli1(out, later));
    assert_eq!(out.len() - before, CALL);
}

pub fn put_board(out: &mut Vec<u8>, b: &Board) {
    let before = out.len();
    put_station(out, &b.station);
    out.extend(b.len.to_le_bytes());
    b.calls.iter().for_each(|call| put_call(out, call));
    assert_eq!(out.len() - before, BOARD);
}

/// Reads structs from their bytes.
pub struct Reader<'a>(pub &'a [u8]);

impl Reader<'_> {
    fn take<const N: usize>(&mut self) -> [u8; N] {
        let (taken, rest) = self.0.split_first_chunk().expect("a whole struct");
        self.0 = rest;
        *taken
    }

    pub fn skip(&mut self, count: usize) {
        self.0 = &self.0[count..];
    }

    pub fn one(&mut self) -> u8 {
        u8::from_le_bytes(self.take())
    }

    pub fn two(&mut self) -> u16 {
        u16::from_le_bytes(self.take())
    }

    fn four(&mut self) -> u32 {
        u32::from_le_bytes(self.take())
    }

    pub fn eight(&mut self) -> u64 {
        u64::from_le_bytes(self.take())
    }

    pub fn event(&mut self) -> Event {
        let [kind, call, leg, message, reason, option, counter, flag] = self.take();
        Event {
            kind,
            call,
            leg,
            message,
            reason,
            option,
            counter,
            flag,
            identifier: self.two(),
            first: self.two(),
            second: self.two(),
            third: self.two(),
            time: self.eight(),
        }
    }

    /// The answer's number and the station.
    pub fn made(&mut self) -> (u8, Station) {
        let code = self.one();
        self.skip(7);
        (code, self.station())
    }

    /// Whether a record was whole, and its event.
    pub fn read(&mut self) -> (u8, Event) {
        let whole = self.one();
        self.skip(7);
        (whole, self.event())
    }

    fn dli1(&mut self) -> Dli1 {
        let [reason, option] = self.take();
        Dli1 {
            reason,
            option,
            number: self.two(),
        }
    }

    fn waits(&mut self) -> Waits {
        let first = self.dli1();
        let [count, _] = self.take();
        Waits {
            first,
            count,
            later: [(); MOST_LATER].map(|()| self.dli1()),
        }
    }

    pub fn call(&mut self) -> Record {
        let [direction, basic, cdo, cdr, cds, cdf, granted, counter] = self.take();
        let start = self.eight();
        let leg1 = self.two();
        let [seen, strictest, forbidden, shown] = self.take();
        let [nominated, own, diverting, original, identifier] = [(); 5].map(|()| self.two());
        let [reason, _] = self.take();
        Record {
            direction,
            basic,
            cdo,
            cdr,
            leg1,
            seen,
            strictest,
            forbidden,
            shown,
            nominated,
            cds,
            cdf,
            own,
            counter,
            diverting,
            original,
            reason,
            identifier,
            start,
            granted,
            waits: self.waits(),
        }
    }

    fn message(&mut self) -> Message {
        let [letter, leg, reason, option, counter, flag] = self.take();
        let [identifier, destination, diverting, original, number] = [(); 5].map(|()| self.two());
        Message {
            letter,
            leg,
            reason,
            option,
            counter,
            flag,
            identifier,
            destination,
            diverting,
            original,
            number,
        }
    }

    fn answer(&mut self) -> Answer {
        let [code, call] = self.take();
        let sent = [(); 3].map(|()| self.message());
        let notice = self.one();
        self.skip(1);
        let number = self.two();
        self.skip(2);
        let identifier = self.four();
        let counter = self.one();
        self.skip(3);
        Answer {
            code,
            call,
            sent,
            notice,
            number,
            identifier,
            counter,
        }
    }

    fn board(&mut self) -> Board {
        Board {
            station: self.station(),
            len: self.eight(),
            calls: [(); MOST_RECORDS].map(|()| self.call()),
        }
    }

    /// The answer, and the board behind it.
    pub fn stepped(&mut self) -> Stepped {
        Stepped {
            answer: self.answer(),
            board: self.board(),
        }
    }

    pub fn ran(&mut self) -> Ran {
        Ran {
            done: self.eight(),
            refused: self.eight(),
            cut: self.eight(),
            board: self.board(),
        }
    }

    /// The answer and the station, and so many records as they lie.
    pub fn told(&mut self, records: usize) -> Told {
        Told {
            answer: self.answer(),
            station: self.station(),
            after: (0..records).map(|_| self.take()).collect(),
        }
    }

    /// What a plan told, and so many numbers as they lie.
    pub fn rehearsed(&mut self, numbers: usize) -> plans::Told {
        let answer = Rehearsed {
            code: self.one(),
            ending: self.one(),
            last: self.two(),
            counter: self.one(),
        };
        self.skip(1);
        plans::Told {
            answer,
            after: (0..numbers).map(|_| self.two()).collect(),
        }
    }
}
