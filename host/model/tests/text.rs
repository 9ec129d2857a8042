//! The text form.
#![forbid(unsafe_code)]

use model::text::{decode, encode, read_line, write_event, Line};
use model::{guided, panel, profile, random::Random, Event};

#[test]
fn all_profiles_round_trip() {
    for profile in profile::ALL {
        let events = profile::events(profile, 21, 2000);
        let bytes = panel::bytes(&events);
        let text = decode(&bytes);
        assert_eq!(encode(&text).as_ref(), Ok(&bytes));
        for (event, line) in events.iter().zip(text.lines()) {
            assert_eq!(line.starts_with("raw "), !event.well_made());
        }
        assert_eq!(panel::records(&bytes).0, events);
    }
}

#[test]
fn every_shape_of_event_round_trips() {
    let mut random = Random::new(9);
    for _ in 0..20_000 {
        let event = guided::any_well_made(&mut random, &[]);
        let event = match random.chance(40) {
            true => guided::bent(&mut random, event),
            false => event,
        };
        let event = Event {
            time: random.draw() >> random.below(64),
            ..event
        };
        let line = write_event(&event);
        assert_eq!(read_line(&line), Ok(Some(Line::Event(event))), "{line}");
    }
}

#[test]
fn cut_records_round_trip() {
    let bytes = panel::bytes(&profile::events(profile::Profile::Mixed, 1, 3));
    for length in 0..bytes.len() {
        assert_eq!(encode(&decode(&bytes[..length])).unwrap(), bytes[..length]);
    }
}

#[test]
fn comments_and_empty_lines_are_passed_over() {
    let text = "# a call\n\n  open outgoing 101 at 1 # opens\n\t\nclock at 2\n";
    assert_eq!(
        decode(&encode(text).unwrap()),
        "open outgoing 101 at 1\nclock at 2\n"
    );
}

#[test]
fn a_result_or_error_with_identifier_0_is_raw_and_an_invoke_is_not() {
    for (kind, first) in [(7, "raw 07"), (8, "raw 08")] {
        let event = Event {
            kind,
            ..Event::default()
        };
        let line = write_event(&event);
        assert!(line.starts_with(first), "{line}");
        assert_eq!(read_line(&line), Ok(Some(Line::Event(event))));
    }
    let invoke = "reroute call 0 leg 1 cfu counter 1 id 0 to 5 at 1\n";
    assert_eq!(decode(&encode(invoke).unwrap()), invoke);
}

/// Each of kinds 16 to 31 as it is said; an identifier may be 0.
#[test]
fn kinds_16_to_31_have_their_words() {
    let lines = "\
activation request panel 7 cfu to 8 at 1
deactivation request panel 7 cfb at 1
interrogation request panel 7 cfnr at 1
check request panel 7 at 1
activation invoke panel 7 cfu id 0 to 8 at 1
deactivation invoke panel 7 cfb id 1 at 1
interrogation invoke panel 7 cfnr id 65535 at 1
check invoke panel 7 id 0 at 1
activation result id 0 at 1
deactivation result id 1 at 1
interrogation result id 2 to 8 at 1
check result id 3 at 1
activation error id 0 at 1
deactivation error id 1 at 1
interrogation error id 2 at 1
check error id 3 at 1
";
    let bytes = encode(lines).unwrap();
    assert_eq!(decode(&bytes), lines);
    let kinds: Vec<u8> = bytes.chunks(24).map(|record| record[0]).collect();
    assert_eq!(kinds, (16..=31).collect::<Vec<u8>>());
}

#[test]
fn a_raw_line_may_hold_any_record() {
    let text = "raw 0A00000000000000000000000000000000000000000000ff";
    assert_eq!(decode(&encode(text).unwrap()), "clock at 255\n");
}

/// Texts that are not read, and how their errors begin.
const WRONG: [(&str, &str); 25] = [
    (
        "clock at 1\nclock",
        "line 2: expected `at`, found the end of the line",
    ),
    ("ring call 1 at 2", "line 1: expected open, alerted"),
    (
        "open sideways 3 at 1",
        "line 1: expected `outgoing` or `incoming`, found `sideways`",
    ),
    (
        "open outgoing 0 at 1",
        "line 1: expected a number from 1 to 65535, found `0`",
    ),
    (
        "end call 256 at 1",
        "line 1: expected a number from 0 to 255, found `256`",
    ),
    (
        "end call +6 at 1",
        "line 1: expected a number from 0 to 255, found `+6`",
    ),
    (
        "result call 0 id 0 at 1",
        "line 1: expected a number from 1 to 65535, found `0`",
    ),
    (
        "error call 0 id 0 at 1",
        "line 1: expected a number from 1 to 65535, found `0`",
    ),
    (
        "divert call 1 unknown to 3 at 1",
        "line 1: expected one of cfu, cfb, cfnr",
    ),
    (
        "divert call 1 cfu often to 3 at 1",
        "line 1: expected `to`, found `often`",
    ),
    (
        "message call 0 leg 3 connect at 1",
        "line 1: expected a number from 1 to 2",
    ),
    (
        "message call 0 leg 1 facility at 1",
        "line 1: expected `dli3-allowed` or",
    ),
    (
        "message call 0 leg 1 alerting number 4 at 1",
        "line 1: expected `at`",
    ),
    (
        "message call 0 leg 1 release-complete dli3-allowed at 1",
        "line 1: expected `at`",
    ),
    (
        "clock at 18446744073709551616",
        "line 1: expected a number from 0 to 184",
    ),
    (
        "clock at 1 now",
        "line 1: expected the end of the line, found `now`",
    ),
    (
        "activation call 0 at 1",
        "line 1: expected one of request, invoke, result, error, found `call`",
    ),
    (
        "check request panel 7 cfu at 1",
        "line 1: expected `at`, found `cfu`",
    ),
    (
        "interrogation result id 3 at 1",
        "line 1: expected `to`, found `at`",
    ),
    (
        "activation request panel 0 cfu to 1 at 1",
        "line 1: expected a number from 1 to 65535",
    ),
    (
        "deactivation invoke panel 1 unknown id 1 at 1",
        "line 1: expected one of cfu, cfb, cfnr",
    ),
    ("raw 00", "line 1: expected 48 hex digits, found `00`"),
    ("raw é0", "line 1: expected 48 hex digits"),
    ("cut 000", "line 1: expected 2 to 46 hex digits"),
    (
        "cut 00\nclock at 1",
        "line 2: expected nothing after a cut record",
    ),
];

#[test]
fn errors_name_the_line_and_what_was_expected() {
    for (text, error) in WRONG {
        let found = encode(text).unwrap_err();
        assert!(found.starts_with(error), "{text}: {found}");
    }
}
