//! Events to text.

use super::{remote, DLI3S, MESSAGES, OPTIONS, REASONS, SHORT};
use crate::codes::*;
use crate::event::Event;
use crate::panel;

/// The line of an event, without a line end.
pub fn write_event(event: &Event) -> String {
    if !event.well_made() {
        return format!("raw {}", hex(&event.encode()));
    }
    format!("{} at {}", body(event), event.time)
}

/// The text of event records, with `cut` for a cut last one.
pub fn decode(bytes: &[u8]) -> String {
    let (events, rest) = panel::records(bytes);
    let mut text = String::new();
    for event in &events {
        text.push_str(&write_event(event));
        text.push('\n');
    }
    if !rest.is_empty() {
        text.push_str(&format!("cut {}\n", hex(rest)));
    }
    text
}

fn hex(bytes: &[u8]) -> String {
    bytes.iter().map(|byte| format!("{byte:02x}")).collect()
}

/// A word with a space before it, or nothing for a word that is left out.
fn word(words: &[&str], code: u8) -> String {
    match words[usize::from(code)] {
        "" => String::new(),
        word => format!(" {word}"),
    }
}

/// A key and its number, or nothing if that is absent.
fn number(key: &str, value: u16) -> String {
    match value {
        0 => String::new(),
        _ => format!(" {key} {value}"),
    }
}

fn body(event: &Event) -> String {
    let call = event.call;
    match event.kind {
        OPEN_OUTGOING => format!("open outgoing {}", event.first),
        OPEN_INCOMING => format!("open incoming {}", event.first),
        OPEN_DIVERTED => diverted(event),
        USER_ANSWERS => format!("answer call {call}{}", word(&["", "allowed"], event.flag)),
        USER_DIVERTS => format!("divert call {call}{}", reason_option_to(event)),
        CLOCK => "clock".to_string(),
        REROUTE => reroute(event),
        DLI1 => format!("dli1 call {call}{}", reason_option_to(event)),
        MESSAGE => message(event),
        ACTIVATION_REQUEST..=CHECK_ERROR => remote::write(event),
        _ => short(event),
    }
}

fn short(event: &Event) -> String {
    let row = SHORT.iter().find(|row| row.0 == event.kind);
    match row {
        Some((_, name, true)) => format!("{name} call {} id {}", event.call, event.identifier),
        Some((_, name, false)) => format!("{name} call {}", event.call),
        None => String::new(),
    }
}

fn diverted(event: &Event) -> String {
    format!(
        "open incoming {} diverted{} counter {}{}{}",
        event.first,
        word(&REASONS, event.reason),
        event.counter,
        number("from", event.second),
        number("original", event.third)
    )
}

fn reason_option_to(event: &Event) -> String {
    format!(
        "{}{}{}",
        word(&REASONS, event.reason),
        word(&OPTIONS, event.option),
        number("to", event.second)
    )
}

fn reroute(event: &Event) -> String {
    format!(
        "reroute call {} leg {}{}{} counter {} id {}{}{}",
        event.call,
        event.leg,
        word(&REASONS, event.reason),
        word(&OPTIONS, event.option),
        event.counter,
        event.identifier,
        number("to", event.second),
        number("original", event.third)
    )
}

fn message(event: &Event) -> String {
    format!(
        "message call {} leg {}{}{}{}",
        event.call,
        event.leg,
        word(&MESSAGES, event.message - 1),
        word(&DLI3S, event.flag),
        number("number", event.second)
    )
}
