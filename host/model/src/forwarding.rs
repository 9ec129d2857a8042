//! Calls whose leg 2 is forwarded on and on: events that fill the fifteen
//! places and go past them, and what waits in lent records.

use crate::codes::*;
use crate::event::Event;
use crate::guided;
use crate::random::Random;
use crate::record::Record;
use crate::waits::{Dli1, Waits, MOST_LATER};

/// Mostly with number: one stricter option of fifteen hides it.
fn wide_option(random: &mut Random) -> u8 {
    random.weighted(&[(1, NO_NOTIFICATION), (1, WITHOUT_NUMBER), (58, WITH_NUMBER)])
}

/// The event with a wide option, if it has one.
fn wide(random: &mut Random, event: Event) -> Event {
    match event.kind {
        REROUTE | DLI1 => Event {
            option: wide_option(random),
            ..event
        },
        _ => event,
    }
}

/// An invoke on leg 2 that is accepted while there is room.
fn onward(random: &mut Random) -> Event {
    let reason = random.pick(&[CFU, CFB]);
    let event = guided::reroute(random, 2, reason);
    wide(random, event)
}

/// What may happen in Invoked: mostly one more waits.
fn in_invoked(random: &mut Random, record: &Record) -> Event {
    let (on, out) = match record.waits.is_full() {
        true => (14, 5),
        false => (120, 1),
    };
    let any_reason = random.byte(CFU, CFNR);
    let told = guided::dli1(random);
    let own_end = Event {
        kind: OWN_END,
        ..Event::default()
    };
    let choices = [
        (on, onward(random)),
        (3 * out, guided::message(random, 2, ALERTING)),
        (out, guided::message(random, 2, CONNECT)),
        (out, guided::message(random, 2, RELEASE_COMPLETE)),
        (2 * out, guided::message(random, 1, RELEASE_COMPLETE)),
        (out, guided::message(random, 1, CONNECT)),
        (out, own_end),
        (2, guided::reroute(random, 2, CFNR)),
        (2, guided::reroute(random, 1, any_reason)),
        (3, wide(random, told)),
        (2, guided::message(random, 1, FACILITY)),
        (1, guided::message(random, 2, FACILITY)),
        (2, guided::message(random, 1, ALERTING)),
    ];
    random.weighted(&choices)
}

/// An event about a call in Invoked; now and then, or when there is none,
/// about any.
pub fn about_a_call(random: &mut Random, table: &[Record]) -> Event {
    let invoked: Vec<usize> = (0..table.len())
        .filter(|&at| table[at].is_invoked())
        .collect();
    if invoked.is_empty() || random.chance(4) {
        let event = guided::about_a_call(random, table);
        return wide(random, event);
    }
    let at = random.pick(&invoked);
    Event {
        call: at as u8,
        ..in_invoked(random, &table[at])
    }
}

/// What waits in a sound record: one to fifteen.
pub fn waits(random: &mut Random) -> Waits {
    let narrow = random.chance(30);
    let mut dli1 = |reason| Dli1 {
        reason,
        option: match narrow {
            true => random.option(),
            false => wide_option(random),
        },
        number: random.number(),
    };
    let mut waits = Waits::begun(dli1(CFNR));
    let later: [Dli1; MOST_LATER] = std::array::from_fn(|_| dli1(CFU));
    let any = random.below(MOST_LATER as u64);
    let count = random.weighted(&[(4, 0), (2, 1), (4, any), (1, 13), (4, 14)]);
    for dli1 in &later[..count as usize] {
        waits.add(Dli1 {
            reason: random.pick(&[CFU, CFB]),
            ..*dli1
        });
    }
    waits
}

/// Changes one number of what waits, mostly against soundness.
pub fn damage(random: &mut Random, waits: &mut Waits) {
    let used = waits.used().len();
    let behind = MOST_LATER - used;
    let place = match (random.chance(70), used, behind) {
        (true, 1.., _) => &mut waits.later[random.below(used as u64) as usize],
        (_, _, 1..) => &mut waits.later[used + random.below(behind as u64) as usize],
        _ => &mut waits.first,
    };
    match random.below(9) {
        0 | 1 => waits.count = random.byte(MOST_LATER as u8 + 1, 255),
        2 => waits.count = random.byte(0, MOST_LATER as u8),
        3 | 4 => place.reason = random.pick(&[UNKNOWN, CFU, CFNR, CFNR, 4, 255]),
        5 => place.option = random.pick(&[NO_NOTIFICATION, WITHOUT_NUMBER, 3, 255]),
        6 => place.number = random.pick(&[0, 0, 1]),
        7 => waits.first.reason = random.pick(&[UNKNOWN, CFU, CFB, 4]),
        _ => waits.first.number = 0,
    }
}
