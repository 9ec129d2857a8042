//! Events chosen with an eye on the table, so that lists reach deep states:
//! random events alone stay shallow.

use crate::codes::*;
use crate::event::Event;
use crate::random::Random;
use crate::record::Record;
use crate::remote_events;

/// A choice of events with their weights.
type Choice = (u64, Event);

fn of_kind(kind: u8) -> Event {
    Event {
        kind,
        ..Event::default()
    }
}

/// An open of one of the three kinds.
pub fn open(random: &mut Random) -> Event {
    let first = random.number();
    match random.below(5) {
        0 | 1 => Event {
            first,
            ..of_kind(OPEN_OUTGOING)
        },
        2 => Event {
            first,
            ..of_kind(OPEN_INCOMING)
        },
        _ => Event {
            first,
            reason: random.byte(UNKNOWN, CFNR),
            counter: random.byte(1, MOST_DIVERSIONS),
            second: random.number_or_none(),
            third: random.number_or_none(),
            ..of_kind(OPEN_DIVERTED)
        },
    }
}

pub fn answer(random: &mut Random) -> Event {
    Event {
        flag: random.byte(0, 1),
        ..of_kind(USER_ANSWERS)
    }
}

pub fn divert(random: &mut Random, reason: u8) -> Event {
    Event {
        reason,
        option: random.option(),
        second: random.number(),
        ..of_kind(USER_DIVERTS)
    }
}

/// The identifier of a request, or any where there is none, also 0.
fn identifier_or_any(random: &mut Random, identifier: u16) -> u16 {
    match identifier {
        0 => random.pick(&[0, 1, 2, 65_535]),
        _ => identifier,
    }
}

fn reply(kind: u8, identifier: u16) -> Event {
    Event {
        identifier,
        ..of_kind(kind)
    }
}

pub fn reroute(random: &mut Random, leg: u8, reason: u8) -> Event {
    let any = random.draw() as u16;
    Event {
        leg,
        reason,
        option: random.option(),
        counter: random.byte(1, MOST_DIVERSIONS),
        identifier: random.weighted(&[(1, 0), (1, u16::MAX), (8, any)]),
        second: random.number(),
        third: random.number_or_none(),
        ..of_kind(REROUTE)
    }
}

pub fn dli1(random: &mut Random) -> Event {
    Event {
        reason: random.weighted(&[(1, UNKNOWN), (1, CFU), (1, CFB), (3, CFNR)]),
        option: random.option(),
        second: random.number(),
        ..of_kind(DLI1)
    }
}

/// A kind 14 whose flag and number suit the message.
pub fn message(random: &mut Random, leg: u8, message: u8) -> Event {
    let flag = match message {
        RELEASE_COMPLETE => NO_DLI3,
        FACILITY => random.weighted(&[(5, DLI3_ALLOWED), (1, DLI3_FORBIDDEN)]),
        _ => random.weighted(&[(6, NO_DLI3), (9, DLI3_ALLOWED), (2, DLI3_FORBIDDEN)]),
    };
    let second = match flag {
        NO_DLI3 => 0,
        _ => random.number_or_none(),
    };
    Event {
        leg,
        message,
        flag,
        second,
        ..of_kind(MESSAGE)
    }
}

/// What may happen next to an outgoing call; most of it is taken.
fn outgoing(random: &mut Random, record: &Record) -> Event {
    let early = random.pick(&[CFU, CFB]);
    let rerouted = reroute(random, 1, early);
    let no_reply = reroute(random, 1, CFNR);
    let told = dli1(random);
    let facility = message(random, 1, FACILITY);
    let alerting = message(random, 1, ALERTING);
    let connect = message(random, 1, CONNECT);
    let release = message(random, 1, RELEASE_COMPLETE);
    let end = of_kind(OWN_END);
    let alike = [(8, facility), (3, connect), (2, release), (2, end)];
    let own: Vec<Choice> = match (record.is_invoked(), record.basic) {
        (true, _) => invoked(random),
        (_, DELIVERED) => vec![(24, no_reply), (8, rerouted), (10, told), (4, alerting)],
        (_, PROCEEDING) => vec![(28, alerting), (9, rerouted), (3, no_reply), (10, told)],
        _ => vec![(8, release), (8, end), (3, no_reply), (2, told)],
    };
    random.weighted(&[own.as_slice(), &alike].concat())
}

/// What may happen in Invoked beside the messages on leg 1.
fn invoked(random: &mut Random) -> Vec<Choice> {
    let leg = random.byte(1, 2);
    let reason = random.byte(CFU, CFNR);
    vec![
        (14, message(random, 2, ALERTING)),
        (7, message(random, 2, CONNECT)),
        (7, message(random, 2, RELEASE_COMPLETE)),
        (1, message(random, 2, FACILITY)),
        (6, message(random, 1, RELEASE_COMPLETE)),
        (4, message(random, 1, ALERTING)),
        (2, message(random, 1, CONNECT)),
        (6, reroute(random, leg, reason)),
        (5, dli1(random)),
    ]
}

/// What may happen next to an incoming call; most of it is taken.
fn incoming(random: &mut Random, record: &Record, other_identifier: u16) -> Event {
    let fitting = match record.basic {
        RECEIVED => CFNR,
        _ => random.pick(&[CFU, CFB]),
    };
    let any_reason = random.byte(CFU, CFNR);
    let diverts = divert(random, fitting);
    let tries = divert(random, any_reason);
    let answers = answer(random);
    let alerted = of_kind(USER_ALERTED);
    let kind = random.pick(&[RESULT, RESULT, ERROR]);
    let matching = reply(kind, identifier_or_any(random, record.identifier));
    let failed = of_kind(LEG_FAILED);
    let ends = random.pick(&[OWN_END, FAR_END]);
    let alike = [
        (3, of_kind(ends)),
        (2, tries),
        (2, alerted),
        (3, answers),
        (1, failed),
        (1, reply(kind, other_identifier)),
    ];
    let own: Vec<Choice> = match (record.is_requested(), record.is_granted(), record.basic) {
        (true, _, _) => vec![(16, matching), (3, reply(kind, other_identifier))],
        (_, true, RECEIVED) => vec![(12, failed), (2, matching), (5, answers)],
        (_, true, _) => vec![(8, of_kind(ends)), (1, matching)],
        (_, _, PROCEEDING) => vec![(18, alerted), (14, diverts)],
        (_, _, RECEIVED) => vec![(24, diverts)],
        _ => vec![(10, of_kind(ends))],
    };
    random.weighted(&[own.as_slice(), &alike].concat())
}

/// An event about a call in use, chosen by that call's state; an open when
/// there is none.
pub fn about_a_call(random: &mut Random, table: &[Record]) -> Event {
    let used: Vec<usize> = (0..table.len())
        .filter(|&at| !table[at].is_free())
        .collect();
    if used.is_empty() {
        return open(random);
    }
    let at = random.pick(&used);
    let event = match table[at].direction {
        OUTGOING => outgoing(random, &table[at]),
        _ => {
            let other = table[random.pick(&used)].identifier;
            let other = identifier_or_any(random, other);
            incoming(random, &table[at], other)
        }
    };
    Event {
        call: at as u8,
        ..event
    }
}

/// The event, mostly with its options and DLI3s as open as can be, and seldom
/// an answer: a call shows a second number only after many such.
pub fn open_handed(random: &mut Random, event: Event) -> Event {
    if random.chance(5) {
        return event;
    }
    match (event.kind, event.message) {
        (REROUTE | DLI1, _) => Event {
            option: WITH_NUMBER,
            ..event
        },
        (MESSAGE, CONNECT) => Event {
            message: ALERTING,
            ..event
        },
        (MESSAGE, _) if event.flag == DLI3_FORBIDDEN => Event {
            flag: DLI3_ALLOWED,
            ..event
        },
        _ => event,
    }
}

/// A well-made event of any kind about any call, near the table or past it.
pub fn any_well_made(random: &mut Random, table: &[Record]) -> Event {
    if random.chance(30) {
        return remote_events::any(random);
    }
    let leg = random.byte(1, 2);
    let reason = random.byte(CFU, CFNR);
    let kind = random.byte(OPEN_OUTGOING, FAR_END);
    let event = match kind {
        OPEN_OUTGOING..=OPEN_DIVERTED => return open(random),
        CLOCK => return of_kind(CLOCK),
        USER_ANSWERS => answer(random),
        USER_DIVERTS => divert(random, reason),
        RESULT | ERROR => reply(kind, random.pick(&[1, 2, 65_534, 65_535])),
        REROUTE => reroute(random, leg, reason),
        DLI1 => dli1(random),
        MESSAGE => {
            let which = random.byte(FACILITY, RELEASE_COMPLETE);
            message(random, leg, which)
        }
        _ => of_kind(kind),
    };
    let call = match random.below(12) {
        0 => random.pick(&[64, 65, 66, 255]),
        1 => table.len() as u8,
        _ => random.below(table.len() as u64) as u8,
    };
    Event { call, ..event }
}

/// The event with one field but the time changed, mostly against the table of
/// kinds.
pub fn bent(random: &mut Random, event: Event) -> Event {
    let mut bytes = event.encode();
    let at = random.below(16) as usize;
    bytes[at] = match random.below(5) {
        0 => 0,
        1 => random.draw() as u8,
        2 => bytes[at].wrapping_sub(1),
        3 => random.pick(&[3, 4, 15, 16, 31, 32, 255]),
        _ => bytes[at].wrapping_add(1),
    };
    Event::decode(&bytes)
}

/// Any bytes at all but for the time, which would shut out all later events.
pub fn wild(random: &mut Random) -> Event {
    let mut bytes = [0; crate::event::SIZE];
    for byte in &mut bytes[..16] {
        *byte = match random.below(3) {
            0 => 0,
            1 => random.byte(0, 33),
            _ => random.draw() as u8,
        };
    }
    Event::decode(&bytes)
}
