//! Starting tables and stations of any length, sound and damaged, so that a
//! single event can meet every refusal and every state at once.

use crate::codes::*;
use crate::event::Event;
use crate::forwarding;
use crate::guided;
use crate::random::Random;
use crate::record::{Record, COUNT, FIELDS, PLAIN};
use crate::remote_events;
use crate::station::{self, Station};
use crate::untimely;

/// One lent table and station with one event for them.
#[derive(Clone, Debug, PartialEq, Eq)]
pub struct Case {
    pub table: Vec<Record>,
    pub station: Station,
    pub event: Event,
}

/// A sound outgoing record in any state.
pub fn outgoing(random: &mut Random) -> Record {
    let mut record = Record {
        direction: OUTGOING,
        basic: random.weighted(&[(3, PROCEEDING), (6, DELIVERED), (2, ACTIVE)]),
        leg1: random.number(),
        ..Record::default()
    };
    if random.chance(65) {
        record.seen = 1;
        record.strictest = random.option();
        record.forbidden = random.weighted(&[(4, 0), (1, 1)]);
        record.shown = random.weighted(&[(3, 0), (1, 1)]);
        record.nominated = random.number();
        record.cdo = if record.basic == ACTIVE { IDLE } else { DIVERT };
    }
    if record.basic == DELIVERED && random.chance(60) {
        record.cdr = INVOKED;
        record.waits = forwarding::waits(random);
    }
    record
}

/// A sound incoming record in any state; an open request bears the
/// identifier that is given.
pub fn incoming(random: &mut Random, last_time: u64, identifier: u16) -> Record {
    let mut record = Record {
        direction: INCOMING,
        basic: random.weighted(&[(4, PROCEEDING), (5, RECEIVED), (1, ACTIVE)]),
        own: random.number(),
        ..Record::default()
    };
    if random.chance(60) {
        record.counter = random.byte(1, MOST_DIVERSIONS);
        record.diverting = random.number_or_none();
        record.original = random.number_or_none();
        record.cdf = match record.basic {
            ACTIVE => CDF_DONE,
            _ => random.weighted(&[(4, CDF_WAIT), (1, CDF_DONE)]),
        };
    }
    if record.basic == ACTIVE || random.chance(30) {
        return record;
    }
    record.reason = match record.basic {
        RECEIVED => CFNR,
        _ => random.pick(&[CFU, CFB]),
    };
    if random.chance(30) {
        record.granted = 1;
        return record;
    }
    record.cds = REQUESTED;
    record.identifier = identifier;
    let ago = random.pick(&[0, 1, 500, T1 - 1, T1, T1 + 1, 50_000, u64::MAX]);
    record.start = last_time.saturating_sub(ago);
    record
}

/// The identifier so many places on.
fn further(identifier: u16, places: u64) -> u16 {
    (0..places).fold(identifier, |id, _| station::after(id))
}

/// The first identifier from this one on that none of the station's own
/// requests has.
fn beside(station: &Station, mut identifier: u16) -> u16 {
    while station.remote.has_open(identifier) {
        identifier = station::after(identifier);
    }
    identifier
}

/// A sound station, with times from 0 to the end of all time.
pub fn station(random: &mut Random) -> Station {
    let last_time = match random.below(12) {
        0 => 0,
        1 => u64::MAX - random.below(3),
        2 => random.draw(),
        _ => random.below(1_000_000),
    };
    let near_wrap = further(65_500, random.below(72));
    let anywhere = 1 + random.below(65_535) as u16;
    let any_limit = random.byte(1, MOST_DIVERSIONS);
    let next_identifier = random.pick(&[near_wrap, near_wrap, anywhere]);
    Station {
        last_time,
        next_identifier,
        limit: random.weighted(&[(5, 15), (3, 14), (4, any_limit)]),
        remote: remote_events::remote(random, last_time, next_identifier),
    }
}

/// A table of sound records whose open identifiers stand just behind the next
/// one, so that a request has to pass over some.
pub fn table(random: &mut Random, length: usize, station: &Station) -> Vec<Record> {
    let free = random.pick(&[0, 0, 10, 40]);
    let gap = random.pick(&[0, 0, 0, 1, 5]);
    let mut identifier = further(station.next_identifier, gap);
    (0..length)
        .map(|_| {
            if random.chance(free) {
                return Record::default();
            }
            if random.chance(45) {
                return outgoing(random);
            }
            identifier = beside(station, identifier);
            let record = incoming(random, station.last_time, identifier);
            if record.is_requested() {
                identifier = further(identifier, random.pick(&[1, 1, 1, 2, 900]));
            }
            record
        })
        .collect()
}

/// Sixty-four calls, each with an open request.
fn crowded(random: &mut Random, station: &Station) -> Vec<Record> {
    let mut identifier = station.next_identifier;
    let mut requested = || loop {
        identifier = beside(station, identifier);
        let record = incoming(random, station.last_time, identifier);
        if record.is_requested() {
            identifier = station::after(identifier);
            return record;
        }
    };
    (0..MOST_RECORDS).map(|_| requested()).collect()
}

/// Lengths 0 to 66, mostly short ones.
pub fn length(random: &mut Random) -> usize {
    match random.below(40) {
        0 => 0,
        1 => random.pick(&[65, 66]),
        2..=5 => random.pick(&[63, 64, 64]),
        6..=9 => random.below(67) as usize,
        _ => 1 + random.below(6) as usize,
    }
}

/// Changes one field of one record or of the station.
/// What comes out is mostly, but not always, unsound.
pub fn damage(random: &mut Random, table: &mut [Record], station: &mut Station) {
    if random.chance(20) {
        return remote_events::damage(random, table, station);
    }
    if table.is_empty() || random.chance(12) {
        match random.chance(60) {
            true => station.limit = random.pick(&[0, 16, 17, 255]),
            false => station.next_identifier = 0,
        }
        return;
    }
    let at = random.below(table.len() as u64) as usize;
    let record = &mut table[at];
    match random.below(16) {
        0..=4 => *record = any_field_changed(random, record),
        5 => record.basic = random.byte(PROCEEDING, ACTIVE),
        6 => record.cdo = 1 - record.cdo.min(1),
        7 => record.cdr = 1 - record.cdr.min(1),
        8 => record.granted = 1 - record.granted.min(1),
        9 => record.cdf = random.byte(CDF_NONE, CDF_DONE),
        10 => record.start = station.last_time.saturating_add(1),
        11 => open_identifier_0(table),
        12..=14 => damage_waits(random, table, at),
        _ => share_identifier(table),
    }
}

/// Any field, set to an edge of its range or to anything.
fn any_field_changed(random: &mut Random, record: &Record) -> Record {
    let mut values = record.values();
    // Most fields are those of what waits: every other time none of them.
    let fields = random.pick(&[PLAIN, COUNT]);
    let field = random.below(fields as u64) as usize;
    let widest = u64::MAX >> (64 - FIELDS[field].1);
    values[field] = match random.below(6) {
        0 => 0,
        1 => values[field].wrapping_add(1) & widest,
        2 => values[field].wrapping_sub(1) & widest,
        3 => random.draw() & widest,
        4 => widest,
        _ => random.pick(&[1, 2, 3, 4, 15, 16]),
    };
    Record::from_values(&values)
}

/// What waits is damaged, in the first call in Invoked from a place on, or in
/// the one there.
fn damage_waits(random: &mut Random, table: &mut [Record], from: usize) {
    let invoked = (from..table.len()).find(|&at| table[at].is_invoked());
    forwarding::damage(random, &mut table[invoked.unwrap_or(from)].waits);
}

/// The last open request gets the first one's identifier.
fn share_identifier(table: &mut [Record]) {
    let first = table.iter().find(|r| r.is_requested()).copied();
    let last = table.iter_mut().rev().find(|r| r.is_requested());
    if let (Some(first), Some(last)) = (first, last) {
        last.identifier = first.identifier;
    }
}

/// The first open request gets identifier 0.
fn open_identifier_0(table: &mut [Record]) {
    if let Some(open) = table.iter_mut().find(|r| r.is_requested()) {
        open.identifier = 0;
    }
}

/// A sound table of 1 to 64 records and its station.
pub fn sound_start(random: &mut Random) -> (Vec<Record>, Station) {
    let station = station(random);
    if random.chance(3) {
        return (crowded(random, &station), station);
    }
    let length = length(random).clamp(1, MOST_RECORDS);
    (table(random, length, &station), station)
}

/// A table of 0 to 66 records and its station, sound or damaged.
pub fn start(random: &mut Random) -> (Vec<Record>, Station) {
    let mut station = station(random);
    let length = length(random);
    let mut table = table(random, length, &station);
    if random.chance(20) {
        for _ in 0..random.pick(&[1, 1, 1, 2, 4]) {
            damage(random, &mut table, &mut station);
        }
    }
    (table, station)
}

/// One event for a table: mostly one that suits it.
pub fn event(random: &mut Random, table: &[Record], station: &Station) -> Event {
    let event = match random.below(34) {
        29.. => untimely::about_a_call(random, table),
        21.. => remote_events::about_the_station(random, table, station),
        0 => guided::wild(random),
        1 | 2 => guided::open(random),
        3 | 4 => Event {
            kind: CLOCK,
            ..Event::default()
        },
        5..=7 => guided::any_well_made(random, table),
        8 | 9 => forwarding::about_a_call(random, table),
        _ => guided::about_a_call(random, table),
    };
    let event = match random.chance(8) {
        true => guided::bent(random, event),
        false => event,
    };
    let last = station.last_time;
    let edges = remote_events::edges(&station.remote);
    let time = match random.below(20) {
        _ if event.kind == CLOCK && !edges.is_empty() && random.chance(50) => {
            let edge = random.pick(&edges);
            let around = [edge - 1, edge, edge, edge.saturating_add(1)];
            random.pick(&around).max(last)
        }
        0 => last.saturating_sub(random.pick(&[1, T1, u64::MAX])),
        1 => u64::MAX,
        2..=4 => last.saturating_add(random.pick(&[T1 - 1, T1, T1 + 1, 15_000, 30_000])),
        _ => last.saturating_add(random.below(200)),
    };
    Event { time, ..event }
}

/// A whole case. The same generator state gives the same case.
pub fn case(random: &mut Random) -> Case {
    let (table, station) = start(random);
    let event = event(random, &table, &station);
    Case {
        table,
        station,
        event,
    }
}
