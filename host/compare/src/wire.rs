//! What the library takes and hands back, and what the model's values are in
//! it. Stations, events and records are the model's own.

use model::codes::MOST_RECORDS;
use model::plan::Ending;
use model::{panel, Record, Station};

/// The station, the lent length and the array of which the first are lent.
#[derive(Clone, Debug, PartialEq, Eq)]
pub struct Board {
    pub station: Station,
    pub len: u64,
    pub calls: [Record; MOST_RECORDS],
}

/// A message as the library hands it over; the letter of none is 0.
#[derive(Clone, Copy, Debug, Default, PartialEq, Eq)]
pub struct Message {
    pub letter: u8,
    pub leg: u8,
    pub reason: u8,
    pub option: u8,
    pub counter: u8,
    pub flag: u8,
    pub identifier: u16,
    pub destination: u16,
    pub diverting: u16,
    pub original: u16,
    pub number: u16,
}

/// An answer as the library hands it over, with its own values for none.
#[derive(Clone, Copy, Debug, PartialEq, Eq)]
pub struct Answer {
    pub code: u8,
    pub call: u8,
    pub sent: [Message; 3],
    pub notice: u8,
    pub number: u16,
    pub identifier: u32,
    pub counter: u8,
}

/// What one event leaves of a board whose records are lent in place.
#[derive(Clone, Debug, PartialEq, Eq)]
pub struct Stepped {
    pub answer: Answer,
    pub board: Board,
}

/// What a run hands back.
#[derive(Clone, Debug, PartialEq, Eq)]
pub struct Ran {
    pub done: u64,
    pub refused: u64,
    pub cut: u64,
    pub board: Board,
}

/// What a list of events leaves of a board in both ways: each event on lent
/// records, and all of them as one run by value.
#[derive(Clone, Debug, PartialEq, Eq)]
pub struct Played {
    /// None of a board whose table does not fit its array.
    pub steps: Vec<Stepped>,
    pub ran: Ran,
}

impl Played {
    /// Of a list whose events leave this, one after the other.
    pub fn of(start: &Board, mut steps: Vec<Stepped>) -> Played {
        let done = steps.iter().filter(|step| step.answer.code == 0).count() as u64;
        let ran = Ran {
            done,
            refused: steps.len() as u64 - done,
            cut: 0,
            board: steps.last().map_or(start, |last| &last.board).clone(),
        };
        if !start.fits() {
            steps.clear();
        }
        Played { steps, ran }
    }
}

/// What the library hands back of a plan.
#[derive(Clone, Copy, Debug, PartialEq, Eq)]
pub struct Rehearsed {
    pub code: u8,
    pub ending: u8,
    pub last: u16,
    pub counter: u8,
}

impl Board {
    /// "starts with 64 free records and a fresh station of limit 15"
    pub fn panel() -> Board {
        Board {
            station: panel::start().1,
            len: MOST_RECORDS as u64,
            calls: [Record::default(); MOST_RECORDS],
        }
    }

    /// A table, and what stands in the rest of the array. Of a table that is
    /// too long the first records are held.
    pub fn of(table: &[Record], station: Station, rest: [Record; MOST_RECORDS]) -> Board {
        let mut calls = rest;
        let held = table.len().min(MOST_RECORDS);
        calls[..held].copy_from_slice(&table[..held]);
        Board {
            station,
            len: table.len() as u64,
            calls,
        }
    }

    /// Whether the table stands in the array: then its records can be lent.
    pub fn fits(&self) -> bool {
        self.len <= MOST_RECORDS as u64
    }

    /// The table that is lent. Too long a length lends one record too many:
    /// the model refuses that as it would refuse more.
    pub fn lent(&self) -> Vec<Record> {
        match self.fits() {
            true => self.calls[..self.len as usize].to_vec(),
            false => [&self.calls[..], &[Record::default()]].concat(),
        }
    }

    /// The board with this table in the place of the one that is lent.
    pub fn with(&self, table: &[Record], station: Station) -> Board {
        Board {
            len: self.len,
            ..Board::of(table, station, self.calls)
        }
    }
}

impl From<&model::Answer> for Answer {
    fn from(answer: &model::Answer) -> Answer {
        let mut sent = [Message::default(); 3];
        assert!(answer.messages.len() <= sent.len());
        for (place, message) in sent.iter_mut().zip(&answer.messages) {
            *place = Message {
                letter: message.letter as u8,
                leg: message.leg,
                reason: message.reason,
                option: message.option,
                counter: message.counter,
                flag: message.flag,
                identifier: message.identifier,
                destination: message.destination,
                diverting: message.diverting,
                original: message.original,
                number: message.number,
            };
        }
        Answer {
            code: answer.code,
            call: answer.call.unwrap_or(255),
            sent,
            notice: answer.notice.unwrap_or(255),
            number: answer.number.unwrap_or(0),
            identifier: answer.identifier.map_or(65_536, u32::from),
            counter: answer.counter.unwrap_or(0),
        }
    }
}

impl From<&Result<model::plan::Rehearsed, u8>> for Rehearsed {
    fn from(answer: &Result<model::plan::Rehearsed, u8>) -> Rehearsed {
        match answer {
            Ok(done) => Rehearsed {
                code: 0,
                ending: match done.ending {
                    Ending::Rings => 1,
                    Ending::Busy => 2,
                    Ending::Limit => 3,
                },
                last: done.last,
                counter: done.counter,
            },
            Err(code) => Rehearsed {
                code: *code,
                ending: 0,
                last: 0,
                counter: 255,
            },
        }
    }
}
