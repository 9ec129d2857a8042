//! Events that come too early or twice: each sort of event about a call in
//! use, whatever that call's state, so that each cell of `cells` is met.

use crate::codes::*;
use crate::event::Event;
use crate::guided;
use crate::random::Random;
use crate::record::Record;
use crate::remote_events;

fn outgoing(random: &mut Random) -> Event {
    let reason = random.byte(CFU, CFNR);
    let leg = random.weighted(&[(1, 1), (3, 2)]);
    let which = random.byte(FACILITY, RELEASE_COMPLETE);
    // The call goes on: on leg 1 it is seldom released.
    let first = random.weighted(&[
        (9, FACILITY),
        (6, ALERTING),
        (3, CONNECT),
        (1, RELEASE_COMPLETE),
    ]);
    let choices = [
        (3, guided::reroute(random, leg, reason)),
        (2, guided::dli1(random)),
        (4, guided::message(random, 1, first)),
        (6, guided::message(random, 2, which)),
    ];
    random.weighted(&choices)
}

fn incoming(random: &mut Random, identifier: u16) -> Event {
    let reason = random.byte(CFU, CFNR);
    let other = random.pick(&[1, 2, 7, 65_535]);
    let kind = random.weighted(&[
        (3, USER_ALERTED),
        (1, USER_ANSWERS),
        (6, USER_DIVERTS),
        (3, RESULT),
        (3, ERROR),
        (3, LEG_FAILED),
    ]);
    match kind {
        USER_ANSWERS => guided::answer(random),
        USER_DIVERTS => guided::divert(random, reason),
        RESULT | ERROR => Event {
            kind,
            identifier: random.pick(&[identifier.max(1), other]),
            ..Event::default()
        },
        _ => Event {
            kind,
            ..Event::default()
        },
    }
}

/// An event about a call in use, or now and then an answer to a request of
/// the station; an open when there is no call.
pub fn about_a_call(random: &mut Random, table: &[Record]) -> Event {
    let used: Vec<usize> = (0..table.len())
        .filter(|&at| !table[at].is_free())
        .collect();
    if used.is_empty() {
        return guided::open(random);
    }
    if random.chance(15) {
        let kind = random.byte(ACTIVATION_RESULT, CHECK_ERROR);
        let identifier = random.pick(&[0, 1, 65_535]);
        return remote_events::of_kind(random, kind, identifier);
    }
    let at = random.pick(&used);
    let event = match table[at].direction {
        OUTGOING => outgoing(random),
        _ => incoming(random, table[at].identifier),
    };
    Event {
        call: at as u8,
        ..event
    }
}
