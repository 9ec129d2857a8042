//! The text form of kinds 16 to 31: the sort, then what comes of it.

use super::words::Words;
use super::REASONS;
use crate::codes::*;
use crate::event::Event;
use crate::remote::sort;

/// Words of the sorts, in their order.
pub const SORT_WORDS: [&str; SORTS] = ["activation", "deactivation", "interrogation", "check"];
/// Our user's request, the invoke received, a result, an error or reject.
const ROLES: [&str; 4] = ["request", "invoke", "result", "error"];

fn has_panel(kind: u8) -> bool {
    kind <= CHECK_INVOKE
}

fn has_type(kind: u8) -> bool {
    has_panel(kind) && sort(kind) != CHECK
}

fn has_identifier(kind: u8) -> bool {
    kind >= ACTIVATION_INVOKE
}

fn has_destination(kind: u8) -> bool {
    matches!(
        kind,
        ACTIVATION_REQUEST | ACTIVATION_INVOKE | INTERROGATION_RESULT
    )
}

/// Reads all but the time; the first word is a sort.
pub fn read(words: &mut Words) -> Result<Event, String> {
    let Some(sort) = words.choice(&SORT_WORDS) else {
        return words.expected(&format!("one of {}", SORT_WORDS.join(", ")));
    };
    let Some(role) = words.choice(&ROLES) else {
        return words.expected(&format!("one of {}", ROLES.join(", ")));
    };
    let mut event = Event {
        kind: ACTIVATION_REQUEST + SORTS as u8 * role + sort,
        ..Event::default()
    };
    if has_panel(event.kind) {
        event.first = words.keyed("panel", 1, 65_535)? as u16;
    }
    if has_type(event.kind) {
        event.reason = words.reason(1)?;
    }
    if has_identifier(event.kind) {
        event.identifier = words.keyed("id", 0, 65_535)? as u16;
    }
    if has_destination(event.kind) {
        event.second = words.keyed("to", 1, 65_535)? as u16;
    }
    Ok(event)
}

/// Writes all but the time.
pub fn write(event: &Event) -> String {
    let kind = event.kind;
    let role = usize::from(kind - ACTIVATION_REQUEST) / SORTS;
    let mut said = format!("{} {}", SORT_WORDS[sort(kind)], ROLES[role]);
    if has_panel(kind) {
        said += &format!(" panel {}", event.first);
    }
    if has_type(kind) {
        said += &format!(" {}", REASONS[usize::from(event.reason)]);
    }
    if has_identifier(kind) {
        said += &format!(" id {}", event.identifier);
    }
    if has_destination(kind) {
        said += &format!(" to {}", event.second);
    }
    said
}
