//! Each number of the C headers is that of the model, and of the Rust wrapper where
//! that has it. A name that is not compared fails.
#![forbid(unsafe_code)]

use compare::exports::{exports, ARCHIVES};
use compare::headers::{self, Named};
use compare::wire::{Answer, Rehearsed};
use compare::{Archive, Engine};
use model::plan::{Ending, Rehearsed as Rings, MOST_PANELS};
use model::waits::MOST_LATER;
use model::{codes, event, step, text, Event, Record, Station};
use std::collections::BTreeMap;

type Numbers = BTreeMap<&'static str, u64>;

/// The number of the last answer to these events, on one record and with limit 1.
fn answered(lines: &str) -> u8 {
    let bytes = text::encode(lines).expect("events");
    let (mut table, mut station) = (
        [Record::default()],
        Station::fresh(1, 1, 1).expect("a limit"),
    );
    let records = bytes.chunks_exact(event::SIZE);
    let mut codes = records.map(|record| {
        let event = Event::decode(record.try_into().expect("a record"));
        step(&mut table, &mut station, &event).code
    });
    codes.by_ref().last().expect("an event")
}

/// What the model answers where the page has each number.
fn refusals() -> Vec<(&'static str, u8)> {
    let clock = Event {
        kind: codes::CLOCK,
        ..Event::default()
    };
    let mut short = Station::short();
    let opened = |lines: &str| answered(&format!("open incoming 1 at 1\n{lines}"));
    vec![
        ("DONE", answered("clock at 1")),
        ("NOT_SOUND", step(&mut [], &mut short, &clock).code),
        ("TIME_BEFORE", answered("clock at 2\nclock at 1")),
        (
            "NOT_WELL_MADE",
            answered(&format!("raw {}", "0".repeat(48))),
        ),
        ("NO_SUCH_CALL", answered("alerted call 0 at 1")),
        ("NOT_IN_BASIC_STATE", opened("divert call 0 cfnr to 2 at 1")),
        ("NOT_IN_SERVICE_STATE", opened("result call 0 id 1 at 1")),
        (
            "OTHER_IDENTIFIER",
            opened("divert call 0 cfu to 2 at 1\nresult call 0 id 1 at 1"),
        ),
        (
            "OVER_LIMIT",
            answered("open incoming 1 diverted cfu counter 1 at 1\ndivert call 0 cfu to 2 at 1"),
        ),
        (
            "TABLE_FULL",
            answered("open outgoing 1 at 1\nopen outgoing 1 at 1"),
        ),
        (
            "ALREADY_ASKED",
            answered("check request panel 3 at 1\ncheck request panel 3 at 1"),
        ),
    ]
}

/// The sorts of requests to another panel, and their timers.
fn sorts() -> [(&'static str, u64); 8] {
    let timer = |sort: usize| codes::TIMERS[sort];
    [
        ("ACTIVATION", codes::ACTIVATION as u64),
        ("DEACTIVATION", codes::DEACTIVATION as u64),
        ("INTERROGATION", codes::INTERROGATION as u64),
        ("CHECK", codes::CHECK as u64),
        ("T2", timer(codes::ACTIVATION)),
        ("T3", timer(codes::DEACTIVATION)),
        ("T4", timer(codes::INTERROGATION)),
        ("T5", timer(codes::CHECK)),
    ]
}

/// How the comparison holds "none", and the sizes.
fn sizes_and_none() -> Vec<(&'static str, u64)> {
    let none = Answer::from(&model::Answer::default());
    vec![
        ("NO_CALL", none.call.into()),
        ("NO_NOTICE", none.notice.into()),
        ("NO_IDENTIFIER", none.identifier.into()),
        ("NO_NUMBER", none.number.into()),
        ("NO_COUNTER", none.counter.into()),
        ("NO_MESSAGE", none.sent[0].letter.into()),
        ("RECORDS", codes::MOST_RECORDS as u64),
        ("WAITING", 1 + MOST_LATER as u64),
        ("EVENT_BYTES", event::SIZE as u64),
        ("PANELS", MOST_PANELS as u64),
    ]
}

fn ending(ending: Ending) -> u8 {
    let rings = Rings {
        last: 1,
        ending,
        counter: 0,
        way: Vec::new(),
    };
    Rehearsed::from(&Ok(rings)).ending
}

/// The model's own names for the numbers of events.
const CODES: [(&str, u8); 45] = [
    ("OPEN_OUTGOING", codes::OPEN_OUTGOING),
    ("OPEN_INCOMING", codes::OPEN_INCOMING),
    ("OPEN_DIVERTED", codes::OPEN_DIVERTED),
    ("ALERTED", codes::USER_ALERTED),
    ("ANSWERED", codes::USER_ANSWERS),
    ("DIVERT", codes::USER_DIVERTS),
    ("RESULT", codes::RESULT),
    ("ERROR", codes::ERROR),
    ("LEG_FAILED", codes::LEG_FAILED),
    ("CLOCK", codes::CLOCK),
    ("END", codes::OWN_END),
    ("REROUTE", codes::REROUTE),
    ("DLI1", codes::DLI1),
    ("RECEIVED", codes::MESSAGE),
    ("FAR_END", codes::FAR_END),
    ("ACTIVATION_REQUEST", codes::ACTIVATION_REQUEST),
    ("DEACTIVATION_REQUEST", codes::DEACTIVATION_REQUEST),
    ("INTERROGATION_REQUEST", codes::INTERROGATION_REQUEST),
    ("CHECK_REQUEST", codes::CHECK_REQUEST),
    ("ACTIVATION_INVOKE", codes::ACTIVATION_INVOKE),
    ("DEACTIVATION_INVOKE", codes::DEACTIVATION_INVOKE),
    ("INTERROGATION_INVOKE", codes::INTERROGATION_INVOKE),
    ("CHECK_INVOKE", codes::CHECK_INVOKE),
    ("ACTIVATION_RESULT", codes::ACTIVATION_RESULT),
    ("DEACTIVATION_RESULT", codes::DEACTIVATION_RESULT),
    ("INTERROGATION_RESULT", codes::INTERROGATION_RESULT),
    ("CHECK_RESULT", codes::CHECK_RESULT),
    ("ACTIVATION_ERROR", codes::ACTIVATION_ERROR),
    ("DEACTIVATION_ERROR", codes::DEACTIVATION_ERROR),
    ("INTERROGATION_ERROR", codes::INTERROGATION_ERROR),
    ("CHECK_ERROR", codes::CHECK_ERROR),
    ("UNKNOWN", codes::UNKNOWN),
    ("CFU", codes::CFU),
    ("CFB", codes::CFB),
    ("CFNR", codes::CFNR),
    ("NO_NOTIFICATION", codes::NO_NOTIFICATION),
    ("WITHOUT_NUMBER", codes::WITHOUT_NUMBER),
    ("WITH_NUMBER", codes::WITH_NUMBER),
    ("FACILITY", codes::FACILITY),
    ("ALERTING", codes::ALERTING),
    ("CONNECT", codes::CONNECT),
    ("RELEASE", codes::RELEASE_COMPLETE),
    ("NO_DLI3", codes::NO_DLI3),
    ("DLI3_ALLOWED", codes::DLI3_ALLOWED),
    ("DLI3_FORBIDDEN", codes::DLI3_FORBIDDEN),
];

/// What each archive itself says; they must say the same.
fn of_the_archives() -> [(&'static str, u64); 2] {
    let layout = |archive: &str| {
        let (_, names) = exports(archive);
        let number = |name: &String| name.strip_prefix("whipsail_layout_")?.parse().ok();
        names.iter().find_map(number).expect("a layout's number")
    };
    let layouts = ARCHIVES.map(layout);
    assert_eq!(layouts[0], layouts[1]);
    let format = |&archive: &Archive| Engine::start(archive).format();
    let formats: Vec<u32> = Archive::all().iter().map(format).collect();
    assert!(
        formats.iter().all(|&format| format == formats[0]),
        "{formats:?}"
    );
    [("LAYOUT_NUMBER", layouts[0]), ("FORMAT", formats[0].into())]
}

fn expected() -> Numbers {
    let small = CODES.into_iter().chain(refusals()).chain([
        ("RINGS", ending(Ending::Rings)),
        ("BUSY", ending(Ending::Busy)),
        ("AT_LIMIT", ending(Ending::Limit)),
    ]);
    let small = small.map(|(name, number)| (name, u64::from(number)));
    small
        .chain(sizes_and_none())
        .chain(sorts())
        .chain(of_the_archives())
        .collect()
}

/// Names of what is no number: the layout's list and what is made of it, the
/// reference to the archive, and the marks of a plan, which `host/c/rehearse.c` tries.
const WORDS: [&str; 9] = [
    "LAYOUT", "HOLDS", "SIZE", "AT", "JOINED", "NUMBERED", "LINKED", "STAYS", "MARKS",
];

/// What the headers name otherwise than expected.
fn faults(named: &[Named], expected: &Numbers) -> Vec<String> {
    let mut faults = Vec::new();
    let mut left = expected.clone();
    for (name, number) in named {
        let Some(name) = name.strip_prefix("WHIPSAIL_") else {
            faults.push(format!("{name} has no prefix"));
            continue;
        };
        match (left.remove(name), number) {
            (Some(wanted), Ok(number)) if wanted == *number => {}
            (None, Err(_)) if WORDS.contains(&name) => {}
            (wanted, found) => faults.push(format!("{name} is {found:?}, not {wanted:?}")),
        }
    }
    faults.extend(left.keys().map(|name| format!("no header has {name}")));
    faults
}

fn named() -> Vec<Named> {
    let texts = headers::all().into_iter();
    texts.flat_map(|(_, text)| headers::names(&text)).collect()
}

#[test]
fn each_number_is_the_models() {
    let none: [String; 0] = [];
    assert_eq!(faults(&named(), &expected()), none);
}

/// The test above fails where one number is another, and where one is added.
#[test]
fn each_wrong_number_is_found() {
    let expected = expected();
    let good = named();
    let numbers = good.iter().filter(|(_, number)| number.is_ok()).count();
    assert_eq!(numbers, expected.len());
    for at in 0..good.len() {
        let mut wrong = good.clone();
        let Ok(number) = &mut wrong[at].1 else {
            continue;
        };
        *number += 1;
        assert_eq!(faults(&wrong, &expected).len(), 1, "{:?}", wrong[at]);
    }
    for (name, number) in [(SPLIT, 5), ("WHIPSAIL_TOO_EARLY", 10)] {
        let mut more = good.clone();
        more.push((name.to_string(), Ok(number)));
        assert_eq!(faults(&more, &expected).len(), 1);
    }
}

/// What 5 was called before it was split into 10 and 11.
const SPLIT: &str = "WHIPSAIL_NOT_IN_STATE";

/// A host that named 5 does not compile, and finds in the header what became of it.
#[test]
fn the_header_tells_that_5_was_split() {
    assert!(named().iter().all(|(name, _)| name != SPLIT));
    let told = headers::text("whipsail_answer.h");
    assert!(told.contains(&format!("{SPLIT} = 5, where 10 and 11 stand")));
}
