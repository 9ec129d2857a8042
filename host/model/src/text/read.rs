//! Text to events.

use super::words::Words;
use super::{remote, DLI3S, MESSAGES, SHORT};
use crate::codes::*;
use crate::event::{Event, SIZE};

/// What a line that is not empty holds.
#[derive(Clone, Debug, PartialEq, Eq)]
pub enum Line {
    Event(Event),
    /// The bytes of a cut last record.
    Cut(Vec<u8>),
}

/// Reads one line; nothing for an empty one. An error says what was expected.
pub fn read_line(line: &str) -> Result<Option<Line>, String> {
    let content = line.split('#').next().unwrap_or("");
    let mut words = Words::of(content);
    if words.left.is_empty() {
        return Ok(None);
    }
    let read = match words.left[0] {
        "raw" => Line::Event(raw(&mut words)?),
        "cut" => Line::Cut(cut(&mut words)?),
        _ => Line::Event(event(&mut words)?),
    };
    words.end()?;
    Ok(Some(read))
}

/// The event records of a text. An error names the line, from 1.
pub fn encode(text: &str) -> Result<Vec<u8>, String> {
    let mut bytes = Vec::new();
    for (at, line) in text.lines().enumerate() {
        let place = |what: String| format!("line {}: {what}", at + 1);
        match read_line(line).map_err(place)? {
            None => {}
            Some(_) if bytes.len() % SIZE != 0 => {
                return Err(place("expected nothing after a cut record".to_string()))
            }
            Some(Line::Event(event)) => bytes.extend(event.encode()),
            Some(Line::Cut(rest)) => bytes.extend(rest),
        }
    }
    Ok(bytes)
}

/// The bytes of an even count of hex digits.
fn hex(digits: &str) -> Option<Vec<u8>> {
    let even =
        digits.len().is_multiple_of(2) && digits.bytes().all(|byte| byte.is_ascii_hexdigit());
    let pairs = || (0..digits.len()).step_by(2).map(|at| &digits[at..at + 2]);
    match even {
        true => pairs()
            .map(|pair| u8::from_str_radix(pair, 16).ok())
            .collect(),
        false => None,
    }
}

fn raw(words: &mut Words) -> Result<Event, String> {
    words.word("raw")?;
    let bytes = words.left.first().and_then(|digits| hex(digits));
    let record: Option<[u8; SIZE]> = bytes.and_then(|bytes| bytes.try_into().ok());
    match record {
        Some(record) => {
            words.left.remove(0);
            Ok(Event::decode(&record))
        }
        None => words.expected("48 hex digits"),
    }
}

fn cut(words: &mut Words) -> Result<Vec<u8>, String> {
    words.word("cut")?;
    let bytes = words.left.first().and_then(|digits| hex(digits));
    match bytes {
        Some(bytes) if (1..SIZE).contains(&bytes.len()) => {
            words.left.remove(0);
            Ok(bytes)
        }
        _ => words.expected("2 to 46 hex digits, two to a byte"),
    }
}

fn event(words: &mut Words) -> Result<Event, String> {
    let body = match words.left[0] {
        "open" => open(words),
        "clock" => words.word("clock").map(|()| of_kind(CLOCK)),
        "answer" => answer(words),
        "divert" => divert(words),
        "dli1" => dli1(words),
        "reroute" => reroute(words),
        "message" => message(words),
        word if remote::SORT_WORDS.contains(&word) => remote::read(words),
        _ => short(words),
    }?;
    Ok(Event {
        time: words.keyed("at", 0, u64::MAX)?,
        ..body
    })
}

fn of_kind(kind: u8) -> Event {
    Event {
        kind,
        ..Event::default()
    }
}

/// The first word of a kind, then its call.
fn call(words: &mut Words, name: &str, kind: u8) -> Result<Event, String> {
    words.word(name)?;
    Ok(Event {
        call: words.keyed("call", 0, 255)? as u8,
        ..of_kind(kind)
    })
}

fn short(words: &mut Words) -> Result<Event, String> {
    match SHORT.iter().find(|row| words.next_is(row.1)) {
        None => words.expected(
            "open, alerted, answer, divert, result, error, leg-failed, clock, end, reroute, \
             dli1, message, far-end, activation, deactivation, interrogation, check, raw or cut",
        ),
        Some(&(kind, name, with_identifier)) => {
            let mut event = call(words, name, kind)?;
            if with_identifier {
                event.identifier = words.keyed("id", 1, 65_535)? as u16;
            }
            Ok(event)
        }
    }
}

fn open(words: &mut Words) -> Result<Event, String> {
    words.word("open")?;
    let Some(direction) = words.choice(&["outgoing", "incoming"]) else {
        return words.expected("`outgoing` or `incoming`");
    };
    let first = words.party()?;
    let plain = Event {
        first,
        ..of_kind(OPEN_OUTGOING + direction)
    };
    if plain.kind == OPEN_OUTGOING || !words.next_is("diverted") {
        return Ok(plain);
    }
    words.word("diverted")?;
    Ok(Event {
        kind: OPEN_DIVERTED,
        reason: words.reason(0)?,
        counter: words.keyed("counter", 1, 15)? as u8,
        second: words.party_or_none("from")?,
        third: words.party_or_none("original")?,
        ..plain
    })
}

fn answer(words: &mut Words) -> Result<Event, String> {
    let event = call(words, "answer", USER_ANSWERS)?;
    let flag = words.choice(&["", "allowed"]).unwrap_or(0);
    Ok(Event { flag, ..event })
}

fn divert(words: &mut Words) -> Result<Event, String> {
    let event = call(words, "divert", USER_DIVERTS)?;
    Ok(Event {
        reason: words.reason(1)?,
        option: words.option(),
        second: words.keyed("to", 1, 65_535)? as u16,
        ..event
    })
}

fn dli1(words: &mut Words) -> Result<Event, String> {
    let event = call(words, "dli1", DLI1)?;
    Ok(Event {
        reason: words.reason(0)?,
        option: words.option(),
        second: words.keyed("to", 1, 65_535)? as u16,
        ..event
    })
}

fn reroute(words: &mut Words) -> Result<Event, String> {
    let event = call(words, "reroute", REROUTE)?;
    Ok(Event {
        leg: words.keyed("leg", 1, 2)? as u8,
        reason: words.reason(1)?,
        option: words.option(),
        counter: words.keyed("counter", 1, 15)? as u8,
        identifier: words.keyed("id", 0, 65_535)? as u16,
        second: words.keyed("to", 1, 65_535)? as u16,
        third: words.party_or_none("original")?,
        ..event
    })
}

fn message(words: &mut Words) -> Result<Event, String> {
    let event = call(words, "message", MESSAGE)?;
    let leg = words.keyed("leg", 1, 2)? as u8;
    let Some(at) = words.choice(&MESSAGES) else {
        return words.expected(&format!("one of {}", MESSAGES.join(", ")));
    };
    let message = at + FACILITY;
    let flag = match message {
        RELEASE_COMPLETE => NO_DLI3,
        _ => words.choice(&DLI3S).unwrap_or(NO_DLI3),
    };
    if message == FACILITY && flag == NO_DLI3 {
        return words.expected("`dli3-allowed` or `dli3-forbidden`");
    }
    let second = match flag {
        NO_DLI3 => 0,
        _ => words.party_or_none("number")?,
    };
    Ok(Event {
        leg,
        message,
        flag,
        second,
        ..event
    })
}
