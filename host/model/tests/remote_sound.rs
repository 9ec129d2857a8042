//! Fields of kinds 16 to 31 (3), and stations that are not sound (1).
#![forbid(unsafe_code)]

mod common;

use common::*;
use model::codes::{CHECK, SORTS};
use model::station::COUNT;
use model::{sound, Event, Pending, Station};

/// An event of each kind, and a letter for each field that it uses: its
/// number must not be 0 where the letter is a capital.
const USED: [(&str, &str); 16] = [
    ("activation request panel 7 cfu to 8 at 1", "RFS"),
    ("deactivation request panel 7 cfu at 1", "RF"),
    ("interrogation request panel 7 cfu at 1", "RF"),
    ("check request panel 7 at 1", "F"),
    ("activation invoke panel 7 cfu id 9 to 8 at 1", "RFSi"),
    ("deactivation invoke panel 7 cfu id 9 at 1", "RFi"),
    ("interrogation invoke panel 7 cfu id 9 at 1", "RFi"),
    ("check invoke panel 7 id 9 at 1", "Fi"),
    ("activation result id 9 at 1", "i"),
    ("deactivation result id 9 at 1", "i"),
    ("interrogation result id 9 to 8 at 1", "iS"),
    ("check result id 9 at 1", "i"),
    ("activation error id 9 at 1", "i"),
    ("deactivation error id 9 at 1", "i"),
    ("interrogation error id 9 at 1", "i"),
    ("check error id 9 at 1", "i"),
];

/// The event with a number in one field.
fn with(event: Event, field: char, value: u16) -> Event {
    let mut event = event;
    match field {
        'c' => event.call = value as u8,
        'l' => event.leg = value as u8,
        'm' => event.message = value as u8,
        'r' => event.reason = value as u8,
        'o' => event.option = value as u8,
        'n' => event.counter = value as u8,
        'f' => event.flag = value as u8,
        'i' => event.identifier = value,
        '1' => event.first = value,
        's' => event.second = value,
        _ => event.third = value,
    }
    event
}

#[test]
fn fields_are_those_of_the_request() {
    for (at, (line, used)) in USED.iter().enumerate() {
        let good = event(line);
        assert_eq!(usize::from(good.kind), 16 + at);
        assert!(good.well_made(), "{line}");
        for field in "clmonft".chars() {
            assert!(!with(good, field, 1).well_made(), "{line} with {field}");
        }
        for (field, letter) in [('r', 'R'), ('1', 'F'), ('s', 'S'), ('i', 'i')] {
            let uses = used.contains(letter);
            let absent = with(good, field, 0).well_made();
            assert_eq!(absent, !uses || letter == 'i', "{line}, {field}");
            assert_eq!(with(good, field, 3).well_made(), uses, "{line}, {field}");
        }
        assert!(!with(good, 'r', 4).well_made(), "{line}");
    }
    for kind in [0, 32, 255] {
        let other = Event {
            kind,
            ..Event::default()
        };
        assert!(!other.well_made());
    }
}

#[test]
fn fields_come_before_the_state_and_the_time_before_them() {
    let mut panel = Panel::new();
    panel.run("check request panel 7 at 5");
    let mut second = event("check request panel 7 at 5");
    assert_eq!(panel.take(&second).code, 9);
    second.call = 1;
    assert_eq!(panel.take(&second).code, 3);
    second.time = 4;
    assert_eq!(panel.take(&second).code, 2);
    let mut late = event("interrogation result id 0 to 8 at 5");
    assert_eq!(panel.take(&late).code, 11);
    late.second = 0;
    assert_eq!(panel.take(&late).code, 3);
    panel.station.remote.enabled = 2;
    assert_eq!(panel.take(&late).code, 1);
}

#[test]
fn the_call_byte_of_a_full_or_short_table_does_not_matter() {
    let mut panel = Panel::of(1, 15);
    panel.run("open incoming 9 at 1");
    for (line, _) in &USED[..8] {
        assert_eq!(panel.run(line).code, 0, "{line}");
    }
}

/// A station with each sort pending, beside a call with request 65535.
fn lent() -> Panel {
    let mut panel = Panel::new();
    panel.run(REQUESTED);
    for line in [
        "activation request panel 7 cfu to 8 at 4",
        "deactivation request panel 7 cfb at 5",
        "interrogation request panel 7 cfnr at 6",
        "check request panel 8 at 7",
        "activation invoke panel 7 cfu id 1 to 9 at 8",
    ] {
        assert_eq!(panel.run(line).code, 0);
    }
    panel
}

/// The number of a clock event on the changed station.
fn code_with(change: impl Fn(&mut Station)) -> u8 {
    let mut panel = lent();
    change(&mut panel.station);
    panel.run("clock at 9").code
}

#[test]
fn codes_of_the_station_are_held_to_their_range() {
    assert_eq!(code_with(|_| ()), 0);
    for mark in [2, 3, 255] {
        assert_eq!(code_with(|s| s.remote.enabled = mark), 1);
        assert_eq!(code_with(|s| s.remote.allowed = mark), 1);
        for sort in 0..SORTS {
            assert_eq!(code_with(|s| s.remote.pending[sort].wait = mark), 1);
        }
    }
    for mark in [0, 1] {
        assert_eq!(code_with(|s| s.remote.enabled = mark), 0);
        assert_eq!(code_with(|s| s.remote.allowed = mark), 0);
    }
}

#[test]
fn unused_fields_of_a_pending_request_are_0() {
    for sort in 0..SORTS {
        assert_eq!(code_with(|s| s.remote.pending[sort].wait = 0), 1);
        let idle = |identifier, start| {
            move |s: &mut Station| {
                s.remote.pending[sort] = Pending {
                    wait: 0,
                    identifier,
                    start,
                }
            }
        };
        assert_eq!(code_with(idle(0, 0)), 0);
        assert_eq!(code_with(idle(9, 0)), 1);
        assert_eq!(code_with(idle(0, 1)), 1);
    }
}

#[test]
fn any_kept_destination_is_sound() {
    for kept in [0, 1, 65_535] {
        for at in 0..3 {
            assert_eq!(code_with(|s| s.remote.kept[at] = kept), 0);
        }
    }
}

#[test]
fn no_identifier_is_0_or_shared_with_any_open_request() {
    for sort in 0..SORTS {
        let with =
            |identifier| move |s: &mut Station| s.remote.pending[sort].identifier = identifier;
        assert_eq!(code_with(with(0)), 1);
        assert_eq!(code_with(with(77)), 0);
        // The call's is 65535, the sorts' 1 to 4.
        assert_eq!(code_with(with(65_535)), 1);
        for other in (0..SORTS).filter(|&other| other != sort) {
            assert_eq!(code_with(with(1 + other as u16)), 1);
        }
    }
    // An identifier that was drawn and has ended may be the next one.
    assert_eq!(code_with(|s| s.next_identifier = 65_535), 0);
}

#[test]
fn no_start_is_after_the_last_time() {
    for sort in 0..SORTS {
        assert_eq!(code_with(|s| s.remote.pending[sort].start = 8), 0);
        assert_eq!(code_with(|s| s.remote.pending[sort].start = 9), 1);
        assert_eq!(code_with(|s| s.remote.pending[sort].start = 0), 0);
    }
}

#[test]
fn a_fresh_station_takes_both_marks() {
    for (enabled, allowed) in [(2, 0), (0, 2), (255, 255)] {
        assert_eq!(Station::fresh(15, enabled, allowed), Err(3));
    }
    let station = Station::fresh(3, 0, 1).unwrap();
    assert_eq!((station.remote.enabled, station.remote.allowed), (0, 1));
    assert_eq!(station.remote.kept, [0; 3]);
    assert_eq!(station.remote.pending, [Pending::default(); SORTS]);
    let marks = |station: Station| (station.remote.enabled, station.remote.allowed);
    assert_eq!(marks(Station::short()), (1, 1));
    assert_eq!(marks(Panel::new().station), (1, 1));
}

#[test]
fn an_unsound_station_refuses_every_kind_and_stays() {
    for (line, _) in USED {
        let mut panel = lent();
        panel.station.remote.pending[CHECK].identifier = 0;
        let before = (panel.table.clone(), panel.station);
        assert_eq!(panel.run(line).code, 1);
        assert_eq!((panel.table, panel.station), before);
    }
}

#[test]
fn values_and_from_values_are_one_anothers_way_back() {
    let station = lent().station;
    assert!(sound::lent_sound(&lent().table, &station));
    assert_eq!(Station::from_values(&station.values()), station);
    let places: [u64; COUNT] = std::array::from_fn(|at| at as u64 + 1);
    assert_eq!(Station::from_values(&places).values(), places);
}

#[test]
fn a_station_is_said_in_a_line() {
    let said = format!("{:?}", lent().station.remote.pending);
    assert_eq!(said, "[1/1/4, 1/2/5, 1/3/6, 1/4/7]");
}
