//! Tests of forwards that are set from another panel.

use crate::*;
use std::vec::Vec;

fn number(number: u16) -> Number {
    Number::new(number).expect("not 0")
}

struct Panel {
    table: [Call; 2],
    station: Station,
}

impl Panel {
    fn marked(enabled: bool, allowed: bool) -> Panel {
        let station = Station::fresh(5, enabled, allowed).expect("a limit");
        let table = [Call::FREE; 2];
        Panel { table, station }
    }

    fn meet(&mut self, time: u64, kind: Kind) -> Result<Answer, Refusal> {
        let before = (self.table, self.station);
        let told = self.station.step(&mut self.table, &Event::at(time, kind));
        if told.is_err() {
            assert_eq!((self.table, self.station), before, "{told:?}");
        }
        told
    }

    fn destinations(&self) -> [u16; 3] {
        let of = |forward| self.station.destination(forward).map_or(0, Number::get);
        Forward::ALL.map(of)
    }

    fn pending(&self) -> Vec<Sort> {
        let waits = |&sort: &Sort| self.station.pending(sort).is_some();
        Sort::ALL.into_iter().filter(waits).collect()
    }
}

/// A request of a sort, about panel 7.
fn about(sort: Sort, forward: Forward) -> Ask {
    let destination = number(7);
    match sort {
        Sort::Activation => Ask::Activation {
            forward,
            destination,
        },
        Sort::Deactivation => Ask::Deactivation { forward },
        Sort::Interrogation => Ask::Interrogation { forward },
        Sort::Check => Ask::Check,
    }
}

/// Our user asks panel 3.
fn ask(sort: Sort, forward: Forward) -> Kind {
    let (panel, ask) = (number(3), about(sort, forward));
    Kind::Ask { panel, ask }
}

/// Panel 7 asks us.
fn asked(sort: Sort, forward: Forward, identifier: u16) -> Kind {
    let (panel, ask) = (number(7), about(sort, forward));
    Kind::Asked {
        panel,
        identifier,
        ask,
    }
}

fn error(sort: Sort, identifier: u16) -> Kind {
    Kind::RemoteError { sort, identifier }
}

fn result(sort: Sort, identifier: u16) -> Kind {
    let destination = (sort == Sort::Interrogation).then_some(number(7));
    Kind::RemoteResult {
        sort,
        identifier,
        destination,
    }
}

/// Each of the sixteen kinds is read back as itself, and is well made.
#[test]
fn each_kind_and_its_record() {
    let mut kinds = Vec::new();
    for sort in Sort::ALL {
        let forward = Forward::Cfnr;
        kinds.extend([ask(sort, forward), asked(sort, forward, 0)]);
        kinds.extend([result(sort, 9), error(sort, 0)]);
    }
    for (at, kind) in kinds.iter().enumerate() {
        let event = Event::at(1, *kind);
        let bytes = event.to_bytes();
        let (role, sort) = (at % 4, at / 4);
        assert_eq!(usize::from(bytes[0]), 16 + 4 * role + sort);
        assert_eq!(Event::from_bytes(&bytes), event);
        assert!(event.is_well_made(), "{event:?}");
        for at in [1, 2, 3, 5, 6, 7, 15] {
            let mut bent = bytes;
            bent[at] = 1;
            let bent = Event::from_bytes(&bent);
            assert!(!bent.is_well_made() && matches!(bent.kind, Kind::Raw(_)));
        }
    }
    for sort in Sort::ALL {
        for destination in [None, Some(number(7))] {
            let kind = Kind::RemoteResult {
                sort,
                identifier: 9,
                destination,
            };
            let fits = destination.is_some() == (sort == Sort::Interrogation);
            assert_eq!(Event::at(1, kind).is_well_made(), fits, "{kind:?}");
        }
    }
    for sort in Sort::ALL {
        assert_eq!(Sort::of(sort.number()), Some(sort));
    }
    for forward in Forward::ALL {
        assert_eq!(Forward::of(forward.number()), Some(forward));
        assert_eq!(forward.reason().number(), forward.number());
    }
}

#[test]
fn each_request_is_sent_and_waits() {
    let mut panel = Panel::marked(true, true);
    for (sort, identifier) in Sort::ALL.into_iter().zip([65535, 1, 2, 3]) {
        let told = panel.meet(5, ask(sort, Forward::Cfb)).expect("done");
        let sent = Message::Ask {
            panel: number(3),
            identifier,
            ask: about(sort, Forward::Cfb),
        };
        assert_eq!(told.sent, [Some(sent), None, None]);
        assert_eq!((told.call, told.counter, told.number), (None, None, None));
        assert_eq!(told.identifier, Some(identifier));
        assert_eq!(sent.leg(), None);
        let start = 5;
        let pending = Pending { identifier, start };
        assert_eq!(panel.station.pending(sort), Some(pending));
        let again = panel.meet(5, ask(sort, Forward::Cfu));
        assert_eq!(again, Err(Refusal::AlreadyAsked));
    }
    assert_eq!(panel.station.next_identifier(), 4);
}

/// By a result, an error or its time; by no answer of another sort or identifier.
#[test]
fn each_request_ends() {
    for sort in Sort::ALL {
        for end in [result(sort, 65535), error(sort, 65535), Kind::Clock] {
            let mut panel = Panel::marked(true, true);
            let none = panel.meet(5, end);
            assert_eq!(none.is_ok(), end == Kind::Clock, "none is pending");
            panel.meet(5, ask(sort, Forward::Cfu)).expect("done");
            for other in Sort::ALL.into_iter().filter(|&other| other != sort) {
                let told = panel.meet(5, error(other, 65535));
                assert_eq!(told, Err(Refusal::NotInServiceState));
            }
            for foreign in [0, 1, 65534] {
                let told = panel.meet(5, result(sort, foreign));
                assert_eq!(told, Err(Refusal::OtherIdentifier));
            }
            let early = panel.meet(5 + sort.time() - 1, Kind::Clock).expect("done");
            assert_eq!((early.identifier, panel.pending()), (None, std::vec![sort]));
            let told = panel.meet(5 + sort.time(), end).expect("done");
            let expired = (end == Kind::Clock).then_some(65535);
            assert_eq!((told.identifier, told.call), (expired, None));
            assert_eq!((told.messages().count(), panel.pending()), (0, Vec::new()));
        }
    }
}

#[test]
fn clock_events_end_calls_first() {
    let mut panel = Panel::marked(true, true);
    for sort in Sort::ALL {
        panel.meet(5, ask(sort, Forward::Cfu)).expect("done");
    }
    let own = number(102);
    panel.meet(5, Kind::OpenIncoming { own }).expect("done");
    let divert = Kind::Divert {
        call: 0,
        reason: Reason::Cfu,
        option: Choice::WithNumber,
        destination: number(300),
    };
    let told = panel.meet(5, divert).expect("done");
    assert_eq!(
        told.identifier,
        Some(4),
        "those of the station are not drawn"
    );
    let ended = [(); 6].map(|()| {
        let told = panel.meet(40_000, Kind::Clock).expect("done");
        (told.call, told.identifier)
    });
    let mut expected = std::vec![(Some(0), Some(4))];
    expected.extend([65535, 1, 2, 3].map(|identifier| (None, Some(identifier))));
    expected.push((None, None));
    assert_eq!(ended[..], expected);
}

#[test]
fn what_is_kept() {
    let mut panel = Panel::marked(true, true);
    let mut meet = |sort, forward, identifier| {
        let told = panel.meet(1, asked(sort, forward, identifier));
        let told = told.expect("done");
        assert_eq!((told.call, told.identifier), (None, Some(identifier)));
        (told.sent[0].expect("an answer"), panel.destinations())
    };
    let result = |identifier, to| Message::RemoteResult {
        identifier,
        destination: Number::new(to),
    };
    let fails = |identifier| Message::RemoteError { identifier };
    let (on, off, what) = (Sort::Activation, Sort::Deactivation, Sort::Interrogation);
    assert_eq!(meet(off, Forward::Cfu, 9), (fails(9), [0, 0, 0]));
    assert_eq!(meet(what, Forward::Cfu, 9), (fails(9), [0, 0, 0]));
    assert_eq!(meet(on, Forward::Cfb, 0), (result(0, 0), [0, 7, 0]));
    assert_eq!(meet(what, Forward::Cfb, 0), (result(0, 7), [0, 7, 0]));
    assert_eq!(meet(what, Forward::Cfnr, 1), (fails(1), [0, 7, 0]));
    assert_eq!(meet(on, Forward::Cfnr, 2), (result(2, 0), [0, 7, 7]));
    assert_eq!(meet(off, Forward::Cfb, 3), (result(3, 0), [0, 0, 7]));
    assert_eq!(meet(off, Forward::Cfb, 4), (fails(4), [0, 0, 7]));
    let over = Kind::Asked {
        panel: number(9),
        identifier: 5,
        ask: Ask::Activation {
            forward: Forward::Cfnr,
            destination: number(9),
        },
    };
    panel.meet(1, over).expect("done");
    assert_eq!(panel.destinations(), [0, 0, 9]);
    assert_eq!(panel.pending(), [], "no check is sent by itself");
}

#[test]
fn what_the_marks_decide() {
    for (enabled, allowed) in [(true, true), (true, false), (false, true), (false, false)] {
        let mut panel = Panel::marked(enabled, allowed);
        for (sort, mark) in [(Sort::Activation, enabled), (Sort::Check, allowed)] {
            let told = panel.meet(1, asked(sort, Forward::Cfu, 9)).expect("done");
            let letter = told.sent[0].map(|message| message.letter());
            assert_eq!(letter, Some(if mark { 'r' } else { 'e' }));
        }
        assert_eq!(panel.destinations(), [if enabled { 7 } else { 0 }, 0, 0]);
        panel.station.set_marks(false, allowed);
        let told = panel.meet(1, asked(Sort::Deactivation, Forward::Cfu, 9));
        let letter = told.expect("done").sent[0].map(|message| message.letter());
        assert_eq!(letter, Some(if enabled { 'r' } else { 'e' }));
    }
}

/// Codes out of range, fields that are not used, identifiers that are 0 or shared,
/// starts after the last time.
#[test]
fn damaged_stations() {
    let mut panel = Panel::marked(true, true);
    for sort in [Sort::Activation, Sort::Check] {
        panel.meet(5, ask(sort, Forward::Cfu)).expect("done");
    }
    let bytes = panel.station.to_bytes();
    let sound = |bytes: [u8; 88]| {
        let mut station = Station::from_bytes(bytes);
        let told = station.step(&mut [Call::FREE], &Event::at(5, Kind::Clock));
        assert!(matches!(told, Ok(_) | Err(Refusal::NotSound)), "{told:?}");
        told.is_ok()
    };
    assert!(sound(bytes));
    let with = |at: usize, put: &[u8]| {
        let mut bent = bytes;
        bent[at..at + put.len()].copy_from_slice(put);
        bent
    };
    let six = 6_u64.to_ne_bytes();
    let shared = 65535_u16.to_ne_bytes();
    for (at, put) in [
        (10, &[0][..]), // the limit
        (10, &[16]),
        (8, &[0, 0]), // the next identifier
        (16, &six),   // a start, after the last time
        (24, &[0, 0]),
        (26, &[0]), // waits no more, and is not all 0
        (26, &[2]),
        (32, &[1]), // of a sort of which none waits
        (40, &[1]),
        (42, &[1]),
        (72, &shared),
        (86, &[2]), // marks
        (87, &[2]),
        (87, &[255]),
    ] {
        assert!(!sound(with(at, put)), "{put:?} at {at}");
    }
    for at in (11..16).chain(27..32).chain([75, 79]).chain(80..86) {
        assert!(sound(with(at, &[255])), "byte {at}");
    }
}
