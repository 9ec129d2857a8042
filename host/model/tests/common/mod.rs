//! Runs lists in the text form, from the panel's start unless said otherwise.
#![allow(dead_code)]

use model::text::{self, Line};
use model::{panel, step, Answer, Event, Record, Station};

/// A table and a station that take events one after the other.
pub struct Panel {
    pub table: Vec<Record>,
    pub station: Station,
}

impl Panel {
    pub fn new() -> Panel {
        let (table, station) = panel::start();
        Panel { table, station }
    }

    /// Free records and a fresh station of that limit.
    pub fn of(records: usize, limit: u8) -> Panel {
        Panel {
            table: vec![Record::default(); records],
            station: Station::fresh(limit, 1, 1).expect("a limit from 1 to 15"),
        }
    }

    pub fn take(&mut self, event: &Event) -> Answer {
        step(&mut self.table, &mut self.station, event)
    }

    /// Takes each line; hands back the last answer.
    pub fn run(&mut self, lines: &str) -> Answer {
        let answers: Vec<Answer> = events(lines).iter().map(|event| self.take(event)).collect();
        answers.last().cloned().expect("a line")
    }

    /// As `run`; hands back the last printed line without its position.
    pub fn line(&mut self, lines: &str) -> String {
        self.run(lines).to_string()
    }
}

pub fn events(lines: &str) -> Vec<Event> {
    lines.lines().filter_map(line).collect()
}

fn line(line: &str) -> Option<Event> {
    match text::read_line(line).unwrap_or_else(|error| panic!("{line}: {error}")) {
        Some(Line::Event(event)) => Some(event),
        _ => None,
    }
}

/// The one event of a line.
pub fn event(line: &str) -> Event {
    events(line)[0]
}

/// The last line printed, without its position.
pub fn last(lines: &str) -> String {
    Panel::new().line(lines)
}

/// The answer to the last line.
pub fn answer(lines: &str) -> Answer {
    Panel::new().run(lines)
}

/// The record of a call after these lines.
pub fn record(lines: &str, call: usize) -> Record {
    let mut panel = Panel::new();
    panel.run(lines);
    panel.table[call]
}

/// Lines one after the other.
pub fn join(first: &str, second: &str) -> String {
    format!("{first}\n{second}")
}

/// A call that was rerouted on no reply and now has two legs.
pub const INVOKED: &str = "\
open outgoing 101 at 1
message call 0 leg 1 alerting at 2
reroute call 0 leg 1 cfnr with-number counter 2 id 7 to 207 original 55 at 3";

/// A call that saw a DLI1 with every option open.
pub const DIVERT: &str = "\
open outgoing 101 at 1
dli1 call 0 cfu with-number to 207 at 2";

/// An incoming call that rings.
pub const RINGS: &str = "\
open incoming 102 at 1
alerted call 0 at 2";

/// An incoming call that rings with an open no-reply request 65535.
pub const REQUESTED: &str = "\
open incoming 102 at 1
alerted call 0 at 2
divert call 0 cfnr with-number to 300 at 3";

/// INVOKED, with so many DLI1s waiting in all: behind the first, to 207, the
/// others nominate 301, 302 and so on.
pub fn waiting(count: usize) -> String {
    let mut lines = INVOKED.to_string();
    for at in 1..count {
        let reason = ["cfb", "cfu"][at % 2];
        lines += &format!(
            "\nreroute call 0 leg 2 {reason} with-number counter {at} id {at} to {} at 3",
            300 + at
        );
    }
    lines
}

/// The number that leg 2 has then.
pub fn last_waiting(count: usize) -> u16 {
    match count {
        1 => 207,
        _ => 299 + count as u16,
    }
}
