//! The words of `whipsail_text.h` are those of the Rust wrapper, for every number,
//! as a C program prints them (`host/c/texts.c`).
#![forbid(unsafe_code)]

use compare::Archive;
use whipsail::{Ask, Ending, Event, Forward, Message, Number, PlainMessage, Reason, Refusal};

/// The wrapper's words for a number.
fn words(of_what: &str, number: u8) -> &'static str {
    match of_what {
        "refusal" if number == 0 => "done", // no refusal in Rust
        "refusal" => Refusal::of(number).text(),
        "kind" => {
            let mut bytes = [0; 24];
            bytes[0] = number;
            Event::from_bytes(&bytes).kind.text()
        }
        "letter" => {
            let letter = number;
            let plain = PlainMessage::default();
            Message::Other(PlainMessage { letter, ..plain }).text()
        }
        "reason" => Reason::of(number).text(),
        "ending" => Ending::of(number).text(),
        _ => panic!("no texts of a {of_what}"),
    }
}

/// Whether a line is said by the wrapper too.
fn same(line: &str) -> bool {
    let mut columns = line.splitn(3, ' ');
    let mut column = || columns.next().expect("three columns");
    let (of_what, number, said) = (column(), column(), column());
    said == words(of_what, number.parse().expect("a number"))
}

#[test]
fn c_and_rust_say_the_same() {
    for &archive in Archive::all() {
        let ran = archive.program("texts").output().expect("it starts");
        let said = String::from_utf8(ran.stdout).expect("text");
        assert_eq!(said.lines().count(), 5 * 256);
        for line in said.lines() {
            assert!(same(line), "{archive:?}: {line}");
            assert!(!same(&format!("{line}.")) && !same(&line[..line.len() - 1]));
        }
    }
}

/// The error's own text, as a host prints it.
#[test]
fn an_error_shows_its_text() {
    for number in 1..=255 {
        let shown = Refusal::of(number).to_string();
        assert_eq!(shown, format!("{number}: {}", words("refusal", number)));
    }
}

/// Each message that the wrapper knows has the words of its letter.
#[test]
fn a_message_says_its_letter() {
    let leg = whipsail::Leg::One;
    let (forward, destination) = (Forward::Cfu, Number::MIN);
    let asks = [
        Ask::Activation {
            forward,
            destination,
        },
        Ask::Deactivation { forward },
        Ask::Interrogation { forward },
        Ask::Check,
    ];
    let (panel, identifier) = (Number::MIN, 9);
    let sent = asks.map(|ask| Message::Ask {
        panel,
        identifier,
        ask,
    });
    let destination = Some(destination);
    let known = [
        Message::RemoteResult {
            identifier,
            destination,
        },
        Message::RemoteError { identifier },
        Message::Alerting { leg },
        Message::Connect { leg },
        Message::ReleaseComplete { leg },
        Message::LegFailed { leg },
    ];
    for known in sent.into_iter().chain(known) {
        assert_eq!(known.text(), words("letter", known.letter() as u8));
    }
}
