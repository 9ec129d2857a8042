//! What the Rust wrapper hands over for each name has the number that the C headers
//! give to it (`constants` holds those to the model).
#![forbid(unsafe_code)]

use compare::headers;
use model::profile::{self, Profile};
use std::collections::BTreeMap;
use whipsail::{Ask, Choice, Dli3, Ending, Event, Forward, Kind, Leg, Number, Reason, Received};
use whipsail::{Refusal, Sort};

/// The byte of an event's record at a place.
fn byte(kind: Kind, place: usize) -> u8 {
    Event::at(0, kind).to_bytes()[place]
}

const KINDS: [&str; 15] = [
    "OPEN_OUTGOING",
    "OPEN_INCOMING",
    "OPEN_DIVERTED",
    "ALERTED",
    "ANSWERED",
    "DIVERT",
    "RESULT",
    "ERROR",
    "LEG_FAILED",
    "CLOCK",
    "END",
    "REROUTE",
    "DLI1",
    "RECEIVED",
    "FAR_END",
];

/// The number of each kind of a call, by the name under which the wrapper reads its
/// records.
fn numbers() -> BTreeMap<String, u8> {
    let events = profile::events(Profile::Mixed, 1, 5_000);
    let of_call = |event: &&model::Event| event.kind <= model::codes::FAR_END;
    let well_made = events.iter().filter(|event| event.well_made());
    let read = |event: &model::Event| {
        let shown = format!("{:?}", Event::from_bytes(&event.encode()).kind);
        let name = shown.split(|c: char| !c.is_alphanumeric()).next();
        (name.unwrap_or_default().to_string(), event.kind)
    };
    well_made.filter(of_call).map(read).collect()
}

/// The kinds of no call, of each sort.
fn of_no_call(sort: Sort) -> [(&'static str, Kind); 4] {
    let (panel, forward, identifier) = (Number::MIN, Forward::Cfu, 9);
    let destination = (sort == Sort::Interrogation).then_some(panel);
    let ask = match sort {
        Sort::Activation => Ask::Activation {
            forward,
            destination: panel,
        },
        Sort::Deactivation => Ask::Deactivation { forward },
        Sort::Interrogation => Ask::Interrogation { forward },
        Sort::Check => Ask::Check,
    };
    let asked = Kind::Asked {
        panel,
        identifier,
        ask,
    };
    let result = Kind::RemoteResult {
        sort,
        identifier,
        destination,
    };
    [
        ("REQUEST", Kind::Ask { panel, ask }),
        ("INVOKE", asked),
        ("RESULT", result),
        ("ERROR", Kind::RemoteError { sort, identifier }),
    ]
}

/// The name of a sort in the headers, and of its timer.
fn sort_names(sort: Sort) -> (&'static str, &'static str) {
    match sort {
        Sort::Activation => ("ACTIVATION", "T2"),
        Sort::Deactivation => ("DEACTIVATION", "T3"),
        Sort::Interrogation => ("INTERROGATION", "T4"),
        Sort::Check => ("CHECK", "T5"),
    }
}

#[test]
fn each_sort_and_type_has_the_headers_number() {
    let is = |name: String, number: u64| {
        let name = format!("WHIPSAIL_{name}");
        assert_eq!(headers::number(&name), number, "{name}");
    };
    for sort in Sort::ALL {
        let (name, timer) = sort_names(sort);
        is(name.to_string(), sort.number().into());
        is(timer.to_string(), sort.time());
        for (role, kind) in of_no_call(sort) {
            assert!(Event::at(0, kind).is_well_made(), "{kind:?}");
            is(format!("{name}_{role}"), byte(kind, 0).into());
        }
    }
    for (name, forward) in ["CFU", "CFB", "CFNR"].into_iter().zip(Forward::ALL) {
        is(name.to_string(), forward.number().into());
    }
}

/// `LEG_FAILED` is `LegFailed` in Rust.
fn in_rust(name: &str) -> String {
    let word = |word: &str| word[..1].to_string() + &word[1..].to_lowercase();
    name.split('_').map(word).collect()
}

fn received(message: Received) -> Kind {
    Kind::Received {
        call: 0,
        leg: Leg::One,
        message,
    }
}

/// The messages of an event, and its flags.
fn messages() -> Vec<(&'static str, u8)> {
    let dli3 = |allowed| Dli3 {
        allowed,
        number: None,
    };
    let message = |message| byte(received(message), 3);
    let flag = |with| byte(received(Received::Connect(with)), 7);
    vec![
        ("FACILITY", message(Received::Facility(dli3(true)))),
        ("ALERTING", message(Received::Alerting(None))),
        ("CONNECT", message(Received::Connect(None))),
        ("RELEASE", message(Received::ReleaseComplete)),
        ("NO_DLI3", flag(None)),
        ("DLI3_ALLOWED", flag(Some(dli3(true)))),
        ("DLI3_FORBIDDEN", flag(Some(dli3(false)))),
    ]
}

fn codes() -> Vec<(&'static str, u8)> {
    vec![
        ("NOT_SOUND", Refusal::NotSound.number()),
        ("TIME_BEFORE", Refusal::TimeBefore.number()),
        ("NOT_WELL_MADE", Refusal::NotWellMade.number()),
        ("NO_SUCH_CALL", Refusal::NoSuchCall.number()),
        ("NOT_IN_BASIC_STATE", Refusal::NotInBasicState.number()),
        ("NOT_IN_SERVICE_STATE", Refusal::NotInServiceState.number()),
        ("OTHER_IDENTIFIER", Refusal::OtherIdentifier.number()),
        ("OVER_LIMIT", Refusal::OverLimit.number()),
        ("TABLE_FULL", Refusal::TableFull.number()),
        ("ALREADY_ASKED", Refusal::AlreadyAsked.number()),
        ("UNKNOWN", Reason::Unknown.number()),
        ("CFU", Reason::Cfu.number()),
        ("CFB", Reason::Cfb.number()),
        ("CFNR", Reason::Cfnr.number()),
        ("NO_NOTIFICATION", Choice::NoNotification.number()),
        ("WITHOUT_NUMBER", Choice::WithoutNumber.number()),
        ("WITH_NUMBER", Choice::WithNumber.number()),
        ("RINGS", Ending::Rings.number()),
        ("BUSY", Ending::Busy.number()),
        ("AT_LIMIT", Ending::Limit.number()),
    ]
}

#[test]
fn each_name_has_the_headers_number() {
    let numbers = numbers();
    assert_eq!(numbers.len(), KINDS.len(), "{numbers:?}");
    let kinds = KINDS.map(|name| (name, numbers[&in_rust(name)]));
    let small = kinds.into_iter().chain(messages()).chain(codes());
    let small = small.map(|(name, number)| (name, u64::from(number)));
    let rest = [
        ("FORMAT", whipsail::FORMAT.into()),
        ("RECORDS", whipsail::MOST_RECORDS as u64),
        ("WAITING", whipsail::MOST_WAITING as u64),
        ("PANELS", whipsail::MOST_PANELS as u64),
    ];
    for (name, number) in small.chain(rest) {
        assert_eq!(
            headers::number(&format!("WHIPSAIL_{name}")),
            number,
            "{name}"
        );
    }
}
