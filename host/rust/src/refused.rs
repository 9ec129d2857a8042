//! Tests of refusals: each number and its text; 10, an event that comes too early or too
//! late for its call, and 11, one that only the call's diversion forbids.

use crate::*;
use std::string::ToString;
use std::vec::Vec;

const TOLD: Dli3 = Dli3 {
    allowed: true,
    number: None,
};
const OUT: Kind = Kind::OpenOutgoing { party: Number::MIN };
const IN: Kind = Kind::OpenIncoming { own: Number::MIN };
const ALERTED: Kind = Kind::Alerted { call: 0 };
const ANSWERED: Kind = Kind::Answered {
    call: 0,
    allowed: true,
};
const LEG_FAILED: Kind = Kind::LegFailed { call: 0 };
/// Of the first request of a station.
const RESULT: Kind = Kind::Result {
    call: 0,
    identifier: 65535,
};
const ERROR: Kind = Kind::Error {
    call: 0,
    identifier: 65535,
};
const CFU: Kind = divert(Reason::Cfu);
const CFB: Kind = divert(Reason::Cfb);
const CFNR: Kind = divert(Reason::Cfnr);
const DLI1: Kind = Kind::Dli1 {
    call: 0,
    reason: Reason::Cfu,
    option: Choice::WithNumber,
    nominated: Number::MIN,
};
/// Opens leg 2 of a call that rings.
const FORWARD: Kind = reroute(Leg::One, Reason::Cfnr);
const ON: Kind = reroute(Leg::Two, Reason::Cfu);
const RINGS: Kind = on(Leg::One, Received::Alerting(None));
const CONNECTS: Kind = on(Leg::One, Received::Connect(None));
const FACILITY: Kind = on(Leg::One, Received::Facility(TOLD));
const FACILITY_2: Kind = on(Leg::Two, Received::Facility(TOLD));
/// What else may come on leg 2.
const ON_2: [Kind; 4] = [
    ON,
    on(Leg::Two, Received::Alerting(Some(TOLD))),
    on(Leg::Two, Received::Connect(None)),
    on(Leg::Two, Received::ReleaseComplete),
];

const fn divert(reason: Reason) -> Kind {
    Kind::Divert {
        call: 0,
        reason,
        option: Choice::WithNumber,
        destination: Number::MIN,
    }
}

const fn reroute(leg: Leg, reason: Reason) -> Kind {
    Kind::Reroute {
        call: 0,
        leg,
        reason,
        option: Choice::WithNumber,
        counter: 1,
        identifier: 9,
        destination: Number::MIN,
        original: None,
    }
}

const fn on(leg: Leg, message: Received) -> Kind {
    let call = 0;
    Kind::Received { call, leg, message }
}

#[test]
fn every_refusal_and_its_number() {
    let mut table = [Call::FREE; 1];
    let mut station = Station::fresh(1, true, true).expect("a limit");
    let mut refused = |time, kind| {
        let (before, stood) = (table, station);
        let told = station.step(&mut table, &Event::at(time, kind));
        if told.is_err() {
            assert_eq!((table, station), (before, stood));
        }
        told.err().map(Refusal::number)
    };
    assert_eq!(refused(5, IN), None);
    assert_eq!(refused(4, Kind::Clock), Some(2));
    assert_eq!(refused(5, Kind::Raw([99; 16])), Some(3));
    assert_eq!(refused(5, Kind::Alerted { call: 1 }), Some(4));
    assert_eq!(refused(5, LEG_FAILED), Some(10));
    assert_eq!(refused(5, RESULT), Some(11));
    let foreign = Kind::Result {
        call: 0,
        identifier: 7,
    };
    assert_eq!((refused(5, CFB), refused(6, foreign)), (None, Some(6)));
    assert_eq!(refused(6, IN), Some(8));
    assert_eq!(refused(7, Kind::FarEnd { call: 0 }), None);
    let diverted = Kind::OpenDiverted {
        own: Number::MIN,
        reason: Reason::Cfu,
        counter: 1,
        diverting: None,
        original: None,
    };
    assert_eq!((refused(7, diverted), refused(7, CFB)), (None, Some(7)));
    let (panel, ask) = (Number::MIN, Ask::Check);
    let check = Kind::Ask { panel, ask };
    assert_eq!((refused(8, check), refused(8, check)), (None, Some(9)));
    let clock = Event::at(9, Kind::Clock);
    assert_eq!(station.step(&mut [], &clock), Err(Refusal::NotSound));
}

#[test]
fn every_refusal_has_its_text() {
    for number in (1..=4).chain(6..=11) {
        let refusal = Refusal::of(number);
        assert!(!matches!(refusal, Refusal::Other(_)));
        let said: &dyn core::error::Error = &refusal;
        assert!(said.to_string().starts_with(&std::format!("{number}: ")));
        assert_eq!(std::format!("{refusal:?}"), said.to_string());
    }
}

/// Each of these events, alone after those that are done before it, is refused so.
fn refused(refusal: Refusal, before: &[Kind], events: &[Kind]) {
    let (mut table, mut station) = ([Call::FREE], Station::short());
    for kind in before {
        let told = station.step(&mut table, &Event::at(1, *kind));
        assert!(told.is_ok(), "{before:?}: {told:?}");
    }
    for kind in events {
        let stood = (table, station);
        let told = station.step(&mut table, &Event::at(1, *kind));
        assert_eq!(told, Err(refusal), "{kind:?} after {before:?}");
        assert_eq!((table, station), stood);
    }
}

#[test]
fn too_early_or_too_late() {
    let refused = |before: &[Kind], events: &[Kind]| {
        refused(Refusal::NotInBasicState, before, events);
    };
    refused(&[IN], &[CFNR, LEG_FAILED]);
    refused(&[IN, ALERTED], &[ALERTED, CFU, CFB]);
    let all = [ALERTED, ANSWERED, CFU, CFB, CFNR, RESULT, ERROR, LEG_FAILED];
    refused(&[IN, ANSWERED], &all);
    refused(&[OUT], &ON_2);
    refused(&[OUT, CONNECTS], &ON_2);
    refused(&[OUT, DLI1, CONNECTS], &[DLI1, FACILITY, RINGS, CONNECTS]);
    for before in [&[OUT, DLI1][..], &[OUT, RINGS], &[OUT, RINGS, FORWARD]] {
        refused(before, &[FACILITY_2]);
    }
    // the diversion forbids it too, but this is tested first
    refused(&[IN, CFU], &[CFNR, LEG_FAILED]);
    refused(&[IN, CFU, RESULT], &[CFNR, LEG_FAILED]);
    refused(&[IN, ALERTED, CFNR], &[ALERTED, CFU]);
    refused(&[OUT, CONNECTS], &[FACILITY, FACILITY_2]);
}

#[test]
fn only_its_diversion_forbids_it() {
    let refused = |before: &[Kind], events: &[Kind]| {
        refused(Refusal::NotInServiceState, before, events);
    };
    // already asked, already granted, being diverted away
    refused(&[IN, CFU], &[CFU, CFB, ALERTED, ANSWERED]);
    refused(&[IN, CFB, RESULT], &[CFU, CFB, ALERTED, ANSWERED]);
    refused(&[IN, ALERTED, CFNR], &[CFNR, LEG_FAILED]);
    refused(&[IN, ALERTED, CFNR, RESULT], &[CFNR, RESULT]);
    // no request open or granted
    refused(&[IN], &[RESULT, ERROR]);
    refused(&[IN, ALERTED], &[RESULT, ERROR, LEG_FAILED]);
    refused(&[IN, CFU, ERROR], &[RESULT, ERROR]);
    refused(&[IN, CFU, RESULT], &[RESULT, ERROR]);
    // no forwarded leg, no diversion told yet
    refused(&[OUT, RINGS], &ON_2);
    refused(&[OUT], &[FACILITY]);
    refused(&[OUT, RINGS], &[FACILITY]);
    refused(&[OUT, RINGS, FORWARD], &[FACILITY]);
}

/// What 11 refuses, a call in the same basic state takes.
#[test]
fn another_diversion_takes_it() {
    let taken: [&[Kind]; 10] = [
        &[IN, CFU, ERROR, CFB],
        &[IN, CFU, ERROR, ALERTED],
        &[IN, CFU, ERROR, ANSWERED],
        &[IN, ALERTED, CFNR, ERROR],
        &[IN, ALERTED, CFNR, RESULT, LEG_FAILED],
        &[IN, ALERTED, CFNR, ANSWERED],
        &[OUT, RINGS, FORWARD, ON],
        &[OUT, RINGS, FORWARD, ON_2[3]],
        &[OUT, DLI1, FACILITY],
        &[OUT, DLI1, RINGS, FORWARD, FACILITY],
    ];
    for events in taken {
        let (mut table, mut station) = ([Call::FREE], Station::short());
        let step = |kind: &Kind| station.step(&mut table, &Event::at(1, *kind));
        let told: Vec<_> = events.iter().map(step).collect();
        assert!(told.iter().all(Result::is_ok), "{events:?}: {told:?}");
    }
}
