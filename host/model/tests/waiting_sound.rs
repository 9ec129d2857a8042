//! Soundness of what waits: refusal 1.
#![forbid(unsafe_code)]

mod common;

use common::*;
use model::record::{Record, COUNT, PLAIN};
use model::{sound, step, Dli1, Station, Waits};

/// A record with so many waiting in all, changed; is it sound?
fn sound_with(count: usize, change: impl Fn(&mut Waits)) -> bool {
    let mut changed = record(&waiting(count), 0);
    assert!(sound::record_sound(&changed));
    change(&mut changed.waits);
    sound::record_sound(&changed)
}

#[test]
fn each_number_of_waits_is_sound() {
    for count in 1..=15 {
        assert!(sound_with(count, |_| ()));
    }
}

#[test]
fn a_count_over_14_is_not() {
    for waits in [1, 2, 14, 15] {
        for count in 15..=255 {
            assert!(!sound_with(waits, |w| w.count = count));
        }
    }
}

#[test]
fn a_count_that_is_not_the_number_of_the_places_in_use_is_not() {
    for waits in 1..=15 {
        for count in (0..=14).filter(|&count| usize::from(count) + 1 != waits) {
            assert!(!sound_with(waits, |w| w.count = count));
        }
    }
}

#[test]
fn the_first_is_cfnr() {
    for waits in [1, 2, 15] {
        for reason in (0..=255).filter(|&reason| reason != 3) {
            assert!(!sound_with(waits, |w| w.first.reason = reason));
        }
        assert!(!sound_with(waits, |w| w.first.number = 0));
        for option in 0..=255 {
            let sound = sound_with(waits, |w| w.first.option = option);
            assert_eq!(sound, option <= 2);
        }
    }
}

#[test]
fn the_others_are_cfu_or_cfb() {
    for waits in [2, 8, 15] {
        for at in 0..waits - 1 {
            for value in 0..=255 {
                let sound = sound_with(waits, |w| w.later[at].reason = value);
                assert_eq!(sound, matches!(value, 1 | 2));
                let sound = sound_with(waits, |w| w.later[at].option = value);
                assert_eq!(sound, value <= 2);
            }
            assert!(!sound_with(waits, |w| w.later[at].number = 0));
            for number in [1, 101, 207, 65_535] {
                assert!(sound_with(waits, |w| w.later[at].number = number));
            }
        }
    }
}

#[test]
fn a_place_that_is_not_in_use_is_all_0() {
    let whole = Dli1 {
        reason: 1,
        option: 2,
        number: 9,
    };
    for waits in [1, 2, 14] {
        for at in waits - 1..14 {
            for value in 1..=255 {
                assert!(!sound_with(waits, |w| w.later[at].reason = value));
                assert!(!sound_with(waits, |w| w.later[at].option = value));
                assert!(!sound_with(waits, |w| w.later[at].number = value.into()));
            }
            assert!(!sound_with(waits, |w| w.later[at].number = 256));
            assert!(!sound_with(waits, |w| w.later[at] = whole));
        }
    }
}

#[test]
fn nothing_waits_outside_invoked() {
    let waits = record(&waiting(15), 0).waits;
    let first = Waits::begun(waits.first);
    let lines = ["open outgoing 1 at 1", DIVERT, RINGS, REQUESTED];
    let records = lines.map(|lines| record(lines, 0));
    let ringing = record(&waiting(1), 0);
    let ringing = Record {
        cdr: 0,
        waits: Waits::default(),
        ..ringing
    };
    for base in records.into_iter().chain([Record::default(), ringing]) {
        assert!(sound::record_sound(&base));
        for waits in [waits, first] {
            assert!(!sound::record_sound(&Record { waits, ..base }));
        }
        for field in PLAIN..COUNT {
            let mut values = base.values();
            values[field] = 1;
            assert!(!sound::record_sound(&Record::from_values(&values)));
        }
    }
    // And Invoked is not sound without, or in another basic state.
    assert!(!sound_with(15, |w| *w = Waits::default()));
    let invoked = record(&waiting(15), 0);
    for basic in [0, 1, 3, 4] {
        assert!(!sound::record_sound(&Record { basic, ..invoked }));
    }
    assert!(!sound::record_sound(&Record { cdr: 2, ..invoked }));
}

#[test]
fn such_a_table_is_refused_and_stays() {
    let mut table = vec![Record::default(), record(&waiting(15), 0)];
    table[1].waits.count = 15;
    let mut station = Station {
        last_time: 3,
        ..Station::short()
    };
    let before = table.clone();
    for line in [
        "open outgoing 1 at 4",
        "message call 1 leg 2 alerting at 4",
        "reroute call 1 leg 2 cfu counter 1 id 1 to 1 at 4",
    ] {
        assert_eq!(step(&mut table, &mut station, &event(line)).code, 1);
        assert_eq!(table, before);
    }
    table[1].waits.count = 14;
    assert_eq!(step(&mut table, &mut station, &event("clock at 4")).code, 0);
}

#[test]
fn values_and_from_values_are_one_anothers_way_back() {
    let record = record(&waiting(9), 0);
    assert_eq!(Record::from_values(&record.values()), record);
    let places: Vec<u64> = (1..=COUNT as u64).collect();
    let places: [u64; COUNT] = places.try_into().expect("as many as fields");
    assert_eq!(Record::from_values(&places).values(), places);
}

#[test]
fn a_record_is_said_without_its_empty_places() {
    let said = format!("{:?}", record(&waiting(3), 0).waits);
    assert_eq!(said, "3/2/207 and 2: [1/2/301, 2/2/302]");
    assert_eq!(format!("{:?}", Waits::default()), "0/0/0 and 0: []");
}
