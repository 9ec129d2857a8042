//! What the wrapper's readers say of a record and of a station is what the model
//! holds.
#![forbid(unsafe_code)]

use compare::{memory, stations, wrapped};
use model::codes::{CFU, TIMERS};
use model::random::Random;
use model::{lent, Dli1, Record, Station};
use whipsail::{Basic, Call, Direction, Forward, Number, Reason, Sort};

fn read(record: &Record) -> Call {
    let mut bytes = Vec::new();
    memory::put_call(&mut bytes, record);
    Call::from_bytes(bytes.try_into().expect("a whole record"))
}

fn plain(dli1: whipsail::Dli1) -> Dli1 {
    Dli1 {
        reason: dli1.reason.number(),
        option: dli1.option.number(),
        number: dli1.number.get(),
    }
}

/// None waits but in Invoked.
fn expected_waits(record: &Record) -> Vec<Dli1> {
    match record.is_invoked() {
        true => record.waits.in_order(),
        false => Vec::new(),
    }
}

fn same(record: &Record, call: &Call) {
    let number = Number::new;
    assert_eq!(call.is_free(), record.is_free());
    assert_eq!(call.direction(), Direction::of(record.direction));
    assert_eq!(call.basic(), Basic::of(record.basic));
    assert_eq!(call.party(), number(record.leg1));
    assert_eq!(call.forwarded(), number(record.leg2()));
    let waiting: Vec<Dli1> = call.waiting().map(plain).collect();
    assert_eq!(waiting, expected_waits(record));
    assert_eq!(call.nominated(), number(record.nominated));
    assert_eq!(call.number_shown(), record.shown == 1);
    assert_eq!(call.own(), number(record.own));
    assert_eq!(call.counter().unwrap_or(0), record.counter);
    assert_eq!(call.diverting(), number(record.diverting));
    assert_eq!(call.original(), number(record.original));
    let request = call.request();
    assert_eq!(request.is_some(), record.is_requested());
    if let Some(request) = request {
        assert_eq!(request.identifier, record.identifier);
        assert_eq!(request.start, record.start);
        assert_eq!(request.reason.number(), record.reason);
    }
    let granted = record.is_granted().then_some(record.reason);
    assert_eq!(call.granted().map(Reason::number), granted);
}

fn same_station(station: &Station, read: &whipsail::Station) {
    let remote = &station.remote;
    assert_eq!(read.last(), station.last_time);
    assert_eq!(read.next_identifier(), station.next_identifier);
    assert_eq!(read.limit(), station.limit);
    assert_eq!(read.is_enabled(), remote.enabled == 1);
    assert_eq!(read.is_allowed(), remote.allowed == 1);
    for forward in Forward::ALL {
        let kept = remote.kept[usize::from(forward.number() - CFU)];
        assert_eq!(read.destination(forward), Number::new(kept));
    }
    for sort in Sort::ALL {
        let at = usize::from(sort.number());
        let pending = remote.pending[at];
        let found = read
            .pending(sort)
            .map(|found| (found.identifier, found.start));
        let expected = pending
            .waits()
            .then_some((pending.identifier, pending.start));
        assert_eq!(found, expected);
        assert_eq!(sort.time(), TIMERS[at]);
    }
}

#[test]
fn readers_say_what_a_station_holds() {
    let mut random = Random::new(2);
    for _ in 0..5_000 {
        let station = lent::station(&mut random);
        let read = whipsail::Station::from_bytes(stations::bytes(&station));
        same_station(&station, &read);
        assert_eq!(wrapped::plain(&read), station);
        assert_eq!(whipsail::Station::from_bytes(read.to_bytes()), read);
    }
}

#[test]
fn readers_say_what_a_record_holds() {
    let mut random = Random::new(1);
    for _ in 0..5_000 {
        let (table, _) = lent::sound_start(&mut random);
        for record in &table {
            same(record, &read(record));
        }
    }
}
