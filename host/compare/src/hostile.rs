//! Boards that no sound host lends: any value in any field, beside tables
//! that are sound but for one bit.

use crate::wire::Board;
use model::codes::*;
use model::lent::{self, Case};
use model::random::Random;
use model::record::{COUNT, FIELDS, PLAIN};
use model::waits::MOST_LATER;
use model::{forwarding, remote_events, station, Dli1, Event, Record, Station};

/// Any values of these widths, small ones as often as others.
fn any_values<const N: usize>(random: &mut Random, fields: &[(&str, u32); N]) -> [u64; N] {
    fields.map(|(_, width)| match random.below(3) {
        0 => 0,
        1 => random.below(4),
        _ => random.draw() & (u64::MAX >> (64 - width)),
    })
}

fn any_record(random: &mut Random) -> Record {
    Record::from_values(&any_values(random, &FIELDS))
}

/// Any numbers beside what is sound elsewhere, or any at all.
fn any_station(random: &mut Random) -> Station {
    let any = Station::from_values(&any_values(random, &station::FIELDS));
    let sound = lent::station(random);
    Station {
        last_time: random.draw() >> random.below(64),
        next_identifier: random.draw() as u16,
        limit: random.draw() as u8 >> random.below(8),
        remote: random.pick(&[any.remote, sound.remote]),
    }
}

/// One bit of one field of the station turned over.
fn station_bit_turned(random: &mut Random, station: Station) -> Station {
    let mut values = station.values();
    let field = random.below(values.len() as u64) as usize;
    values[field] ^= 1 << random.below(u64::from(station::FIELDS[field].1));
    Station::from_values(&values)
}

/// One bit of one field turned over.
fn bit_turned(random: &mut Random, record: Record) -> Record {
    let mut values = record.values();
    // Most fields are those of what waits: every other time none of them.
    let fields = random.pick(&[PLAIN, COUNT]);
    let field = random.below(fields as u64) as usize;
    values[field] ^= 1 << random.below(u64::from(FIELDS[field].1));
    Record::from_values(&values)
}

/// What stands past the table's end.
pub fn any_rest(random: &mut Random) -> [Record; MOST_RECORDS] {
    [(); MOST_RECORDS].map(|()| any_record(random))
}

/// One place of a table, which must not be empty.
fn place<'a>(random: &mut Random, table: &'a mut [Record]) -> &'a mut Record {
    let at = random.below(table.len() as u64) as usize;
    &mut table[at]
}

/// Damages a table or its station, mostly: some of it is sound still.
fn damage(random: &mut Random, table: &mut [Record], station: &mut Station) {
    match random.below(13) {
        _ if table.is_empty() => *station = any_station(random),
        10 => *station = station_bit_turned(random, *station),
        11 | 12 => remote_events::damage(random, table, station),
        0 => *station = any_station(random),
        1 => station.limit = random.draw() as u8,
        2 => *place(random, table) = any_record(random),
        3 => table.fill_with(|| any_record(random)),
        4 => {
            let copied = *place(random, table);
            *place(random, table) = copied;
        }
        5 => {
            let wrong = wrong_waits(random);
            *place(random, table) = random.pick(&wrong);
        }
        6 => {
            let record = place(random, table);
            forwarding::damage(random, &mut record.waits);
        }
        _ => {
            let turned = place(random, table);
            *turned = bit_turned(random, *turned);
        }
    }
}

/// Lengths that no board has room for; a part of some would be a table's.
pub const TOO_LONG: [u64; 7] = [65, 66, 255, 256, 1 << 32, (1 << 32) + 3, u64::MAX];

/// A board and an event for it.
pub fn case(random: &mut Random) -> (Board, Event) {
    let (mut table, mut station) = lent::sound_start(random);
    let rest = any_rest(random);
    damage(random, &mut table, &mut station);
    let event = lent::event(random, &table, &station);
    let mut board = Board::of(&table, station, rest);
    if random.chance(5) {
        let long = random.pick(&TOO_LONG);
        board.len = random.weighted(&[(1, 0), (7, long)]);
    }
    (board, event)
}

/// A lent table of 0 to 70 records, sound or damaged, with an event.
pub fn table(random: &mut Random) -> Case {
    let mut station = lent::station(random);
    let length = match random.below(8) {
        0 => random.below(71),
        1 => 60 + random.below(11),
        _ => 1 + random.below(6),
    };
    let mut table = lent::table(random, length as usize, &station);
    match random.below(4) {
        0 => {}
        1 => lent::damage(random, &mut table, &mut station),
        _ => damage(random, &mut table, &mut station),
    }
    let event = lent::event(random, &table, &station);
    Case {
        table,
        station,
        event,
    }
}

/// A table of that length whose records are sound, with an event for the first 64.
pub fn long_table(random: &mut Random, length: usize) -> Case {
    let station = lent::station(random);
    let table = lent::table(random, length, &station);
    let event = lent::event(random, &table[..MOST_RECORDS], &station);
    Case {
        table,
        station,
        event,
    }
}

/// The edges of a field of so many bits, and what is just beyond them: of a
/// byte every value.
fn edges(width: u32, station: &Station) -> Vec<u64> {
    let last = station.last_time;
    match width {
        8 => (0..=255).collect(),
        16 => vec![0, 1, 2, 255, 256, 32_767, 32_768, 65_534, 65_535],
        _ => vec![
            0,
            1,
            last.saturating_sub(1),
            last,
            last.saturating_add(1),
            u64::MAX,
        ],
    }
}

/// A sound call in Invoked.
fn invoked(random: &mut Random) -> Record {
    let mut records = std::iter::repeat_with(|| lent::outgoing(random));
    let found = records.find(Record::is_invoked);
    found.expect("one is in Invoked sooner or later")
}

/// Those of one place behind the first, in use or not, that are not sound.
fn wrong_places(record: &Record, at: usize) -> Vec<Record> {
    let used = at < usize::from(record.waits.count);
    let place = record.waits.later[at];
    let with = |place: Dli1| {
        let mut wrong = *record;
        wrong.waits.later[at] = place;
        wrong
    };
    let (reasons, options, numbers): ([u8; 4], [u8; 4], &[u16]) = match used {
        true => ([UNKNOWN, CFNR, 4, 255], [3, 4, 128, 255], &[0]),
        false => ([CFU, CFB, CFNR, 255], [1, 2, 3, 255], &[1, 256, 65_535]),
    };
    let reasons = reasons.map(|reason| with(Dli1 { reason, ..place }));
    let options = options.map(|option| with(Dli1 { option, ..place }));
    let numbers = numbers.iter().map(|&number| with(Dli1 { number, ..place }));
    reasons.into_iter().chain(options).chain(numbers).collect()
}

/// A call in Invoked of which one number that waits is not sound, in each way,
/// and what waits in records that are not in Invoked.
fn wrong_waits(random: &mut Random) -> Vec<Record> {
    let sound = invoked(random);
    let mut wrong = vec![sound; 17];
    for (record, count) in wrong.iter_mut().zip([15, 16, 127, 128, 255]) {
        record.waits.count = count;
    }
    let one_off = [sound.waits.count.wrapping_sub(1), sound.waits.count + 1];
    for (record, count) in wrong[5..].iter_mut().zip(one_off) {
        record.waits.count = count;
    }
    for (record, reason) in wrong[7..].iter_mut().zip([UNKNOWN, CFU, CFB, 4]) {
        record.waits.first.reason = reason;
    }
    wrong[11].waits.first.option = 3;
    wrong[12].waits.first.number = 0;
    for (record, basic) in wrong[13..].iter_mut().zip([PROCEEDING, ACTIVE]) {
        (record.basic, record.cdr) = (basic, IDLE);
    }
    wrong[15].cdr = IDLE;
    wrong[16] = Record {
        waits: sound.waits,
        ..Record::default()
    };
    wrong.push(Record {
        waits: sound.waits,
        ..lent::incoming(random, u64::MAX, 1)
    });
    wrong.extend((0..MOST_LATER).flat_map(|at| wrong_places(&sound, at)));
    wrong
}

/// The table with another middle record, and an event for it.
fn with_middle(random: &mut Random, table: &[Record], station: Station, record: Record) -> Case {
    let mut table = table.to_vec();
    table[1] = record;
    let event = lent::event(random, &table, &station);
    Case {
        table,
        station,
        event,
    }
}

/// A sound table with each edge of each field of its station in turn.
fn at_every_edge_of_the_station(
    random: &mut Random,
    table: &[Record],
    sound: Station,
) -> Vec<Case> {
    let mut cases = Vec::new();
    for (field, (_, width)) in station::FIELDS.into_iter().enumerate() {
        for edge in edges(width, &sound) {
            let mut values = sound.values();
            values[field] = edge;
            let station = Station::from_values(&values);
            cases.push(with_middle(random, table, station, table[1]));
        }
    }
    cases
}

/// Three sound records, with each edge of each field of the middle one in turn,
/// which is in Invoked more often than others; with each wrong one above; and
/// with each edge of the station.
pub fn at_every_edge(random: &mut Random) -> Vec<Case> {
    let station = lent::station(random);
    let mut table = lent::table(random, 3, &station);
    if random.chance(40) {
        table[1] = invoked(random);
    }
    let mut records = wrong_waits(random);
    for (field, (_, width)) in FIELDS.into_iter().enumerate() {
        for edge in edges(width, &station) {
            let mut values = table[1].values();
            values[field] = edge;
            records.push(Record::from_values(&values));
        }
    }
    let mut cases: Vec<Case> = records
        .into_iter()
        .map(|record| with_middle(random, &table, station, record))
        .collect();
    cases.extend(at_every_edge_of_the_station(random, &table, station));
    cases
}
