//! A record that was kept under format 1, as `layouts/format_1.txt` has it, is read by
//! the wrapper as the record that it was; a station of formats 1 and 2 with the marks
//! that it is given.
#![forbid(unsafe_code)]

use compare::engine::host;
use compare::{memory, wrapped};
use model::random::Random;
use model::{lent, Record, Remote, Station};
use std::collections::BTreeMap;
use std::fs;
use whipsail::Call;

/// Offset and size of each field, by its struct and its name.
type Places = BTreeMap<String, (usize, usize)>;

fn places() -> Places {
    let path = host("compare/layouts/format_1.txt");
    let text = fs::read_to_string(path).expect("the layout of format 1");
    let (mut places, mut current) = (Places::new(), "");
    for line in text.lines() {
        let words: Vec<&str> = line.split_whitespace().collect();
        match words[..] {
            [name, _] => current = name,
            [field, at, size] => {
                let number = |word: &str| word.parse().expect("a number");
                places.insert(format!("{current} {field}"), (number(at), number(size)));
            }
            _ => panic!("{line}"),
        }
    }
    places
}

/// The fields of a call that are numbers.
fn numbers(r: &Record) -> [(&'static str, u64); 15] {
    [
        ("direction", r.direction.into()),
        ("basic", r.basic.into()),
        ("cdo", r.cdo.into()),
        ("cdr", r.cdr.into()),
        ("cds", r.cds.into()),
        ("cdf", r.cdf.into()),
        ("granted", r.granted.into()),
        ("counter", r.counter.into()),
        ("party", r.leg1.into()),
        ("own", r.own.into()),
        ("diverting", r.diverting.into()),
        ("original", r.original.into()),
        ("identifier", r.identifier.into()),
        ("reason", r.reason.into()),
        ("start", r.start),
    ]
}

/// And those of its two structs: the struct, its place in the call, its field.
fn within(r: &Record) -> [(&'static str, &'static str, &'static str, u64); 8] {
    let first = r.waits.first;
    [
        ("dli1", "waiting", "reason", first.reason.into()),
        ("dli1", "waiting", "option", first.option.into()),
        ("dli1", "waiting", "number", first.number.into()),
        ("history", "history", "seen", r.seen.into()),
        ("history", "history", "strictest", r.strictest.into()),
        ("history", "history", "forbidden", r.forbidden.into()),
        ("history", "history", "shown", r.shown.into()),
        ("history", "history", "nominated", r.nominated.into()),
    ]
}

/// The record as it was kept, with something in its padding.
fn kept(places: &Places, record: &Record) -> [u8; 40] {
    let mut bytes = [0xEE; 40];
    let mut put = |base: usize, field: String, value: u64| {
        let (at, size) = places[&field];
        bytes[base + at..][..size].copy_from_slice(&value.to_le_bytes()[..size]);
    };
    for (field, value) in numbers(record) {
        put(0, format!("call {field}"), value);
    }
    for (of, part, field, value) in within(record) {
        let (base, _) = places[&format!("call {part}")];
        put(base, format!("{of} {field}"), value);
    }
    bytes
}

/// In formats 1 and 2 a station was the first 16 bytes of today's.
#[test]
fn a_station_of_format_2_is_read_with_its_marks() {
    let mut random = Random::new(2);
    for round in 0..1_000 {
        let station = lent::station(&mut random);
        let mut bytes = Vec::new();
        memory::put_station(&mut bytes, &station);
        let first = *bytes.first_chunk().expect("16 bytes");
        let (enabled, allowed) = (round % 2 == 1, round % 4 > 1);
        let read = whipsail::Station::from_format_2(first, enabled, allowed);
        let expected = Station {
            remote: Remote::fresh(enabled.into(), allowed.into()),
            ..station
        };
        assert_eq!(wrapped::plain(&read), expected);
    }
}

#[test]
fn a_record_of_format_1_is_read_as_it_was() {
    let places = places();
    let mut random = Random::new(1);
    let mut invoked = 0;
    for _ in 0..3_000 {
        let (table, _) = lent::sound_start(&mut random);
        // In format 1 one DLI1 waits at most.
        for record in table.iter().filter(|record| record.waits.count == 0) {
            let mut now = Vec::new();
            memory::put_call(&mut now, record);
            let now = Call::from_bytes(now.try_into().expect("a whole record"));
            assert_eq!(
                Call::from_format_1(kept(&places, record)),
                now,
                "{record:?}"
            );
            invoked += usize::from(record.is_invoked());
        }
    }
    assert!(invoked > 1_000, "{invoked}");
}
