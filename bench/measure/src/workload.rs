//! Tables and the events that they meet.

use crate::convert;
use model::codes::*;
use model::profile::{Profile, Walk};
use model::random::Random;
use model::{panel, Record, Station};
use plain::call::Call;
use plain::event::Event;

/// A table in use, its station and events for them.
pub struct Workload {
    pub name: &'static str,
    /// The start and the first event, as the model has them.
    pub records: Vec<Record>,
    pub start: Station,
    pub first: model::Event,
    pub table: Vec<Call>,
    pub station: plain::station::Station,
    pub events: Vec<Event>,
    /// The same events as records.
    pub bytes: Vec<u8>,
}

/// Events before those that are measured, so that the table is in full use.
const BEFORE: usize = 2_000;

/// Opens, alerts, answers, diverts, results, messages, clocks and ends on a
/// table that is kept full: the model's profile, as calls come and go.
fn in_use(name: &'static str, records: usize, count: usize) -> Workload {
    let table = vec![Record::default(); records];
    let mut walk = Walk::over(Profile::Full, 1, table, panel::start().1);
    for _ in 0..BEFORE {
        walk.advance();
    }
    let (table, station) = (walk.table.clone(), walk.station);
    let events = (0..count).map(|_| walk.advance().0).collect();
    made(name, &table, station, events)
}

/// Every record an open request: errors that end one, diverts that open it
/// again, results that come too late and clocks. All at one time, so that no T1
/// ends.
fn requests(name: &'static str, count: usize) -> Workload {
    let mut walk = Requests {
        table: vec![Record::default(); MOST_RECORDS],
        station: panel::start().1,
        events: Vec::new(),
    };
    for call in 0..MOST_RECORDS as u8 {
        walk.open();
        walk.divert(call);
    }
    let (table, station) = (walk.table.clone(), walk.station);
    walk.events.clear();
    let mut random = Random::new(1);
    while walk.events.len() < count {
        let call = random.below(MOST_RECORDS as u64) as u8;
        let identifier = walk.table[usize::from(call)].identifier;
        walk.answered(ERROR, call, identifier);
        walk.divert(call);
        walk.answered(RESULT, call, identifier);
        walk.play(model::Event {
            kind: CLOCK,
            ..model::Event::default()
        });
    }
    made(name, &table, station, walk.events)
}

struct Requests {
    table: Vec<Record>,
    station: Station,
    events: Vec<model::Event>,
}

impl Requests {
    fn play(&mut self, event: model::Event) {
        let event = model::Event { time: 1, ..event };
        let answer = model::step(&mut self.table, &mut self.station, &event);
        assert!(matches!(answer.code, 0 | 6), "{event:?} {answer}");
        self.events.push(event);
    }

    fn open(&mut self) {
        self.play(model::Event {
            kind: OPEN_INCOMING,
            first: 102,
            ..model::Event::default()
        });
    }

    fn divert(&mut self, call: u8) {
        self.play(model::Event {
            kind: USER_DIVERTS,
            call,
            reason: CFU,
            option: WITH_NUMBER,
            second: 300,
            ..model::Event::default()
        });
    }

    fn answered(&mut self, kind: u8, call: u8, identifier: u16) {
        self.play(model::Event {
            kind,
            call,
            identifier,
            ..model::Event::default()
        });
    }
}

fn made(
    name: &'static str,
    records: &[Record],
    start: Station,
    events: Vec<model::Event>,
) -> Workload {
    Workload {
        name,
        records: records.to_vec(),
        start,
        first: events[0],
        table: convert::table(records),
        station: convert::station(&start),
        events: events.iter().map(convert::event).collect(),
        bytes: panel::bytes(&events),
    }
}

/// The four tables, with so many events each.
pub fn all(count: usize) -> [Workload; 4] {
    [
        in_use("1 record", 1, count),
        in_use("8 records", 8, count),
        in_use("64 records", 64, count),
        requests("64 open requests", count),
    ]
}
