//! The wrapper's own tests; `host/compare` holds it to the model.

use crate::*;
use std::vec::Vec;

const NINE: &[u8] = include_bytes!("../../vectors/nine.bin");
const HOSTILE: &[u8] = include_bytes!("../../vectors/hostile.bin");
const MIXED: &[u8] = include_bytes!("../../vectors/mixed.bin");

fn number(number: u16) -> Number {
    Number::new(number).expect("not 0")
}

fn records(bytes: &[u8]) -> Vec<[u8; 24]> {
    let whole = bytes.chunks_exact(24);
    whole.map(|one| one.try_into().expect("24 bytes")).collect()
}

fn incoming(own: u16) -> Kind {
    Kind::OpenIncoming { own: number(own) }
}

fn divert(call: u8) -> Kind {
    Kind::Divert {
        call,
        reason: Reason::Cfb,
        option: Choice::WithNumber,
        destination: number(300),
    }
}

#[test]
fn limits() {
    let marks = [(true, true), (true, false), (false, true), (false, false)];
    for (limit, (enabled, allowed)) in (0..=255).flat_map(|limit| marks.map(|m| (limit, m))) {
        let made = Station::fresh(limit, enabled, allowed);
        assert_eq!(made.is_ok(), (1..=15).contains(&limit));
        match made {
            Ok(station) => {
                assert_eq!(station, Station::kept(0, 65535, limit, enabled, allowed));
                let read = (station.is_enabled(), station.is_allowed());
                assert_eq!(read, (enabled, allowed));
            }
            Err(refusal) => assert_eq!(refusal, Refusal::NotWellMade),
        }
    }
    assert_eq!(Ok(Station::short()), Station::fresh(5, true, true));
}

#[test]
fn every_record_reads_back_as_its_bytes() {
    let (mut known, mut raw) = (0, 0);
    for bytes in [NINE, HOSTILE, MIXED].into_iter().flat_map(records) {
        let event = Event::from_bytes(&bytes);
        assert_eq!(event.to_bytes(), bytes);
        match event.kind {
            Kind::Raw(_) => {
                assert!(!event.is_well_made(), "{event:?}");
                raw += 1;
            }
            _ => known += 1,
        }
    }
    assert!(known > 500 && raw > 100, "{known} {raw}");
}

#[test]
fn every_done_event_of_a_call_names_it() {
    let (mut table, mut station) = ([Call::FREE; 64], Station::short());
    let (mut named, mut idle) = (0, 0);
    for bytes in records(MIXED) {
        let event = Event::from_bytes(&bytes);
        match station.step(&mut table, &event).map(|answer| answer.call) {
            Ok(None) => {
                assert!(matches!(bytes[0], 10 | 16..=31), "{event:?}");
                idle += 1;
            }
            Ok(Some(_)) => {
                assert!(bytes[0] < 16, "{event:?}");
                named += 1;
            }
            Err(_) => {}
        }
    }
    assert!(named > 100 && idle > 0, "{named} {idle}");
}

#[test]
fn no_length_but_1_to_64() {
    let open = Event::at(1, incoming(102));
    for length in 0..=70 {
        let mut table = std::vec![Call::FREE; length];
        let mut station = Station::short();
        let done = station.step(&mut table, &open).is_ok();
        assert_eq!(done, (1..=64).contains(&length), "{length} records");
        let used = table.iter().filter(|call| !call.is_free()).count();
        assert_eq!(used, usize::from(done));
    }
}

#[test]
fn readers_say_what_a_panel_shows() {
    let mut table = [Call::FREE; 2];
    let mut station = Station::short();
    let mut step = |table: &mut [Call], time, kind| {
        let told = station.step(table, &Event::at(time, kind));
        told.expect("a done event")
    };
    step(&mut table, 1, incoming(102));
    let asked = step(&mut table, 2, divert(0));
    let Some(Message::Invoke {
        destination, last, ..
    }) = asked.sent[0]
    else {
        panic!("{asked:?}");
    };
    assert_eq!((destination, last), (number(300), number(102)));
    assert!(asked.messages().eq(asked.sent[0]));
    let call = table[0];
    assert_eq!(call.direction(), Some(Direction::Incoming));
    assert_eq!(call.basic(), Some(Basic::Proceeding));
    assert_eq!((call.own(), call.counter()), (Some(number(102)), None));
    let request = call.request().expect("an open request");
    assert_eq!((request.identifier, request.start), (65535, 2));
    assert_eq!((request.reason, call.granted()), (Reason::Cfb, None));
    let identifier = request.identifier;
    step(
        &mut table,
        3,
        Kind::Result {
            call: 0,
            identifier,
        },
    );
    assert_eq!(table[0].granted(), Some(Reason::Cfb));
    assert_eq!(table[1], Call::FREE);
}

#[test]
fn a_station_is_kept_as_its_bytes() {
    let mut station = Station::short();
    let mut table = [Call::FREE; 1];
    let activation = Kind::Asked {
        panel: number(7),
        identifier: 0,
        ask: Ask::Activation {
            forward: Forward::Cfb,
            destination: number(0x0708),
        },
    };
    let check = Kind::Ask {
        panel: number(7),
        ask: Ask::Check,
    };
    for (time, kind) in [
        (0x0102_0304_0506, incoming(102)),
        (0x0102_0304_0507, activation),
        (1 << 63, check),
    ] {
        let told = station.step(&mut table, &Event::at(time, kind));
        assert!(told.is_ok(), "{told:?}");
    }
    let mut bytes = station.to_bytes();
    assert_eq!(bytes[10..64], [[5].as_slice(), &[0; 53]].concat());
    assert_eq!(bytes[..8], (1_u64 << 63).to_ne_bytes());
    assert_eq!(bytes[8..10], 1_u16.to_ne_bytes());
    assert_eq!(bytes[64..72], (1_u64 << 63).to_ne_bytes());
    assert_eq!(bytes[72..74], 65535_u16.to_ne_bytes());
    assert_eq!(bytes[74..80], [1, 0, 0, 0, 0, 0]);
    assert_eq!(bytes[80..82], [0, 0]);
    assert_eq!(bytes[82..84], 0x0708_u16.to_ne_bytes());
    assert_eq!(bytes[84..], [0, 0, 1, 1]);
    let padding = |at: &usize| (11..16).contains(&(at % 16)) && *at < 80;
    (0..88).filter(padding).for_each(|at| bytes[at] = 7);
    assert_eq!(Station::from_bytes(bytes), station);
    assert_eq!(Station::from_bytes(bytes).to_bytes(), station.to_bytes());
    for at in (0..88).filter(|at| !padding(at)) {
        let mut other = bytes;
        other[at] ^= 2;
        assert_ne!(Station::from_bytes(other), station, "byte {at}");
    }
}

#[test]
fn a_station_of_format_2() {
    let mut kept = [7; 16]; // padding
    kept[..8].copy_from_slice(&9_u64.to_ne_bytes());
    kept[8..10].copy_from_slice(&8_u16.to_ne_bytes());
    kept[10] = 5;
    for (enabled, allowed) in [(true, false), (false, true)] {
        let mut station = Station::from_format_2(kept, enabled, allowed);
        assert_eq!(station, Station::kept(9, 8, 5, enabled, allowed));
        assert_eq!((station.last(), station.next_identifier()), (9, 8));
        assert_eq!(
            (station.is_enabled(), station.is_allowed()),
            (enabled, allowed)
        );
        assert!(Sort::ALL
            .iter()
            .all(|&sort| station.pending(sort).is_none()));
        assert!(Forward::ALL
            .iter()
            .all(|&of| station.destination(of).is_none()));
        let told = station.step(&mut [Call::FREE], &Event::at(9, incoming(102)));
        assert!(told.is_ok(), "{told:?}");
    }
}

#[test]
fn a_kept_identifier_0_is_refused() {
    let open = Event::at(1, incoming(102));
    let mut table = [Call::FREE; 1];
    for next in [0, 1, 65535] {
        let told = Station::kept(0, next, 15, true, true).step(&mut table.clone(), &open);
        assert_eq!(told.err(), (next == 0).then_some(Refusal::NotSound));
    }
    let mut station = Station::short();
    for kind in [incoming(102), divert(0)] {
        let told = station.step(&mut table, &Event::at(1, kind));
        assert!(told.is_ok(), "{told:?}");
    }
    let mut bytes = table[0].to_bytes();
    assert_eq!(bytes[30..32], 65535_u16.to_ne_bytes());
    bytes[30..32].copy_from_slice(&[0, 0]);
    table[0] = Call::from_bytes(bytes);
    let told = station.step(&mut table, &Event::at(1, Kind::Clock));
    assert_eq!(told, Err(Refusal::NotSound));
}

#[test]
fn padding_is_no_part_of_a_record() {
    let mut bytes = Call::FREE.to_bytes();
    (bytes[33], bytes[39]) = (7, 8);
    let padded = Call::from_bytes(bytes);
    assert_eq!((padded, padded.to_bytes()), (Call::FREE, bytes));
    for at in (0..96).filter(|at| ![33, 39].contains(at)) {
        let mut other = bytes;
        other[at] = 7;
        assert_ne!(Call::from_bytes(other), Call::FREE, "byte {at}");
    }
}

/// The numbers of a panel with these destinations and marks.
fn panel(destinations: [u16; 3], busy: bool, unattended: bool) -> [u16; 4] {
    let [cfu, cfb, cfnr] = destinations.map(Number::new);
    Panel {
        cfu,
        cfb,
        cfnr,
        busy,
        unattended,
    }
    .numbers()
}

#[test]
fn every_panel_and_its_numbers() {
    for marks in 0..=u16::MAX {
        let numbers = [0, 7, 65535, marks];
        let known = [0, 1, 256, 257].contains(&marks);
        let read = Panel::of(numbers);
        assert_eq!(read.map(Panel::numbers), known.then_some(numbers));
        if let Some(read) = read {
            assert_eq!(read.busy, marks & 255 == 1);
            assert_eq!(read.unattended, marks >> 8 == 1);
            assert_eq!((read.cfu, read.cfb), (None, Some(number(7))));
        }
    }
    assert_eq!(Panel::of([0; 4]), Some(Panel::default()));
    assert_eq!(Panel::default(), Panel::UNSET);
}

#[test]
fn a_panel_forwards_in_the_order_of_the_page() {
    let told = |one| Plan::new(&[one, [0; 4], [0; 4], [0; 4]]).rehearse(1);
    let ends = |ending, last, counter| {
        let last = number(last);
        Ok(Rehearsal {
            ending,
            last,
            counter,
        })
    };
    let (rings, busy) = (Ending::Rings, Ending::Busy);
    assert_eq!(told(panel([2, 3, 4], true, true)), ends(rings, 2, 1));
    assert_eq!(told(panel([0, 3, 4], true, true)), ends(rings, 3, 1));
    assert_eq!(told(panel([0, 0, 4], true, true)), ends(busy, 1, 0));
    assert_eq!(told(panel([0, 3, 4], false, true)), ends(rings, 4, 1));
    assert_eq!(told(panel([0, 3, 0], false, true)), ends(rings, 1, 0));
    assert_eq!(told(panel([0, 3, 4], false, false)), ends(rings, 1, 0));
    let limit = Station::short().limit();
    assert_eq!(told([1, 0, 0, 0]), ends(Ending::Limit, 1, limit));
}

#[test]
fn what_is_no_plan_is_refused() {
    for length in 0..=4 * MOST_PANELS + 9 {
        let numbers = std::vec![0; length];
        let told = Plan::of_numbers(&numbers).rehearse(1);
        let panels = 1..=MOST_PANELS;
        let good = length % 4 == 0 && panels.contains(&(length / 4));
        assert_eq!(told.is_ok(), good, "{length} numbers");
    }
    let refused = Err(Refusal::NotWellMade);
    for bad in [[0, 0, 3, 0], [0, 0, 0, 2], [0, 0, 0, 0x0200]] {
        assert_eq!(Plan::new(&[[0; 4], bad]).rehearse(1), refused);
    }
    for start in [0, 3, 65535] {
        assert_eq!(Plan::new(&[[0; 4]; 2]).rehearse(start), refused);
    }
}
