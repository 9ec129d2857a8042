//! What `whipsail_answer.h` says of messages is what the library sends: which
//! arguments each letter has, and which events of an incoming call send what.
#![forbid(unsafe_code)]

use compare::headers;
use compare::wire::Message;
use compare::wrapped;
use model::codes::*;
use model::profile;
use std::collections::{BTreeMap, BTreeSet};
use whipsail::{Call, Direction, Event, Station};

/// The arguments of a message that are not 0.
fn arguments(message: &Message) -> BTreeSet<&'static str> {
    let all = [
        ("reason", u32::from(message.reason)),
        ("option", message.option.into()),
        ("counter", message.counter.into()),
        ("flag", message.flag.into()),
        ("identifier", message.identifier.into()),
        ("destination", message.destination.into()),
        ("diverting", message.diverting.into()),
        ("original", message.original.into()),
        ("number", message.number.into()),
    ];
    let there = all.into_iter().filter(|(_, value)| *value != 0);
    there.map(|(name, _)| name).collect()
}

/// Each letter of the header with its arguments.
fn described() -> BTreeMap<String, BTreeSet<String>> {
    let header = headers::text("whipsail_answer.h");
    let rows = headers::rows(&header, "it does not have is 0.");
    let row = |row: Vec<String>| {
        let arguments = row.get(2).map_or("", |words| words);
        let list = arguments.split(", ").filter(|word| !word.is_empty());
        (row[0].clone(), list.map(str::to_string).collect())
    };
    rows.into_iter().map(row).collect()
}

/// What an event of an incoming call sends, or an open or a clock event; `cdf` is
/// that of its record before it.
fn expected(kind: u8, cdf: u8) -> &'static str {
    match kind {
        USER_ALERTED => "A1",
        USER_ANSWERS if cdf == CDF_WAIT => "D1",
        USER_ANSWERS => "C1",
        USER_DIVERTS => "I1",
        OWN_END => "X1",
        _ => "",
    }
}

/// Whether an event is about an incoming call, or none of the outgoing ones.
fn is_incoming(kind: u8, record: Option<&Call>) -> bool {
    let outgoing = record.is_some_and(|call| call.direction() == Some(Direction::Outgoing));
    kind <= FAR_END && !matches!(kind, REROUTE..=MESSAGE) && (kind != OWN_END || !outgoing)
}

/// Kinds 16 to 31 send a small letter, which has no leg, or nothing.
fn of_no_call(kind: u8, letters: &str) {
    let may: &[&str] = match kind {
        ACTIVATION_REQUEST => &["a0"],
        DEACTIVATION_REQUEST => &["d0"],
        INTERROGATION_REQUEST => &["i0"],
        CHECK_REQUEST => &["c0"],
        ACTIVATION_INVOKE..=CHECK_INVOKE => &["r0", "e0"],
        _ => &[""],
    };
    assert!(may.contains(&letters), "kind {kind}: {letters}");
}

#[test]
fn letters_arguments_and_incoming_calls() {
    let mut seen: BTreeMap<String, BTreeSet<String>> = BTreeMap::new();
    let mut sent_by: BTreeMap<u8, BTreeSet<String>> = BTreeMap::new();
    for (seed, profile) in (1..).zip(profile::ALL) {
        let (mut table, mut station) = (
            [Call::FREE; 64],
            Station::fresh(15, true, true).expect("a limit"),
        );
        for event in profile::events(profile, seed, 20_000) {
            let record = table.get(usize::from(event.call)).copied();
            let event_in_rust = Event::from_bytes(&event.encode());
            let told = wrapped::answer(station.step(&mut table, &event_in_rust));
            if told.code != 0 {
                continue;
            }
            let messages = told.sent.iter().filter(|message| message.letter != 0);
            let mut letters = String::new();
            for message in messages {
                let letter = char::from(message.letter);
                letters.push_str(&format!("{letter}{}", message.leg));
                let arguments = arguments(message).into_iter().map(str::to_string);
                seen.entry(letter.to_string())
                    .or_default()
                    .extend(arguments);
            }
            if event.kind > FAR_END {
                of_no_call(event.kind, &letters);
            }
            if is_incoming(event.kind, record.as_ref()) {
                let cdf = record.map_or(0, |call| call.to_bytes()[5]);
                assert_eq!(letters, expected(event.kind, cdf), "{event:?}");
                sent_by.entry(event.kind).or_default().insert(letters);
            }
        }
    }
    assert_eq!(seen, described());
    assert_eq!(sent_by.len(), 12, "{sent_by:?}");
    assert_eq!(sent_by[&USER_ANSWERS].len(), 2);
}
