//! Events of kinds 16 to 31, chosen with an eye on the station, and what a
//! lent station holds of them, sound and damaged.

use crate::codes::*;
use crate::event::Event;
use crate::random::Random;
use crate::record::Record;
use crate::remote::{sort, Pending, Remote};
use crate::station::{self, Station, FIELDS};

/// A well-made event of that kind.
pub fn of_kind(random: &mut Random, kind: u8, identifier: u16) -> Event {
    let mut event = Event {
        kind,
        ..Event::default()
    };
    if kind <= CHECK_INVOKE {
        event.first = random.number();
        if sort(kind) != CHECK {
            event.reason = random.byte(CFU, CFNR);
        }
    }
    if kind >= ACTIVATION_INVOKE {
        event.identifier = identifier;
    }
    if matches!(
        kind,
        ACTIVATION_REQUEST | ACTIVATION_INVOKE | INTERROGATION_RESULT
    ) {
        event.second = random.number();
    }
    event
}

/// A well-made event of any of the sixteen kinds.
pub fn any(random: &mut Random) -> Event {
    let kind = random.byte(ACTIVATION_REQUEST, CHECK_ERROR);
    let identifier = random.pick(&[0, 1, 2, 65_534, 65_535]);
    of_kind(random, kind, identifier)
}

/// An identifier that is not the one of this sort: another sort's, a call's,
/// a late one, the next one or 0.
fn foreign(random: &mut Random, table: &[Record], station: &Station) -> u16 {
    let other = random.pick(&station.remote.pending).identifier;
    let call = match table.is_empty() {
        true => 0,
        false => random.pick(table).identifier,
    };
    let next = station.next_identifier;
    let late = next.wrapping_sub(1 + random.below(6) as u16);
    random.weighted(&[(6, other), (4, call), (4, late), (2, next), (1, 0)])
}

/// An event of these kinds, most of which is taken.
pub fn about_the_station(random: &mut Random, table: &[Record], station: &Station) -> Event {
    let sort = random.below(SORTS as u64) as u8;
    let pending = station.remote.pending[usize::from(sort)];
    let (ask, answer, late) = match pending.waits() {
        true => (5, 30, 12),
        false => (40, 0, 8),
    };
    let end = random.pick(&[ACTIVATION_RESULT, ACTIVATION_ERROR]);
    let other = foreign(random, table, station);
    let echoed = match random.below(6) {
        0 => 0,
        1 => other,
        _ => random.draw() as u16,
    };
    let (kind, identifier) = random.weighted(&[
        (ask, (ACTIVATION_REQUEST, 0)),
        (answer, (end, pending.identifier)),
        (late, (end, other)),
        (30, (ACTIVATION_INVOKE, echoed)),
    ]);
    of_kind(random, kind + sort, identifier)
}

/// The ends of the pending requests' timers, and of what a T2 of the others'
/// length would be.
pub fn edges(remote: &Remote) -> Vec<u64> {
    let lengths = TIMERS.into_iter().chain([TIMERS[CHECK]]);
    let sorts = remote.pending.iter().cycle().zip(lengths);
    let waiting = sorts.filter(|(pending, _)| pending.waits());
    waiting
        .map(|(pending, length)| pending.start.saturating_add(length))
        .collect()
}

/// What a sound station holds; open identifiers stand from the next one on.
pub fn remote(random: &mut Random, last_time: u64, next: u16) -> Remote {
    let chance = random.pick(&[0, 30, 60, 100]);
    let gap = random.pick(&[0, 0, 1, 3, 20, 60]);
    let mut identifier = (0..gap).fold(next, |id, _| station::after(id));
    let mut pending = [Pending::default(); SORTS];
    for at in &mut pending {
        if !random.chance(chance) {
            continue;
        }
        let edge = random.pick(&TIMERS);
        let ago = [0, 1, 500, edge - 1, edge, edge + 1, 200_000, u64::MAX];
        *at = Pending {
            wait: WAIT,
            identifier,
            start: last_time.saturating_sub(random.pick(&ago)),
        };
        identifier = (0..random.pick(&[1, 1, 2, 5])).fold(identifier, |id, _| station::after(id));
    }
    // In any order, so that no sort has the lowest.
    pending.rotate_left(random.below(SORTS as u64) as usize);
    Remote {
        pending,
        kept: [(); 3].map(|()| random.number_or_none()),
        enabled: random.weighted(&[(3, 1), (2, 0)]),
        allowed: random.weighted(&[(3, 1), (2, 0)]),
    }
}

/// One sort's request, which waits: if it did not, with the next identifier.
fn waiting<'a>(random: &mut Random, station: &'a mut Station) -> &'a mut Pending {
    let pending = &mut station.remote.pending[random.below(SORTS as u64) as usize];
    if !pending.waits() {
        *pending = Pending {
            wait: WAIT,
            identifier: station.next_identifier,
            start: station.last_time,
        };
    }
    pending
}

/// Changes one number of the station, mostly against soundness.
pub fn damage(random: &mut Random, table: &mut [Record], station: &mut Station) {
    let last = station.last_time;
    match random.below(12) {
        0 => station.remote.enabled = random.pick(&[2, 3, 128, 255]),
        1 => station.remote.allowed = random.pick(&[2, 3, 128, 255]),
        2 => waiting(random, station).wait = random.pick(&[2, 3, 255]),
        3 => waiting(random, station).wait = 0,
        4 => {
            let kept = random.pick(&[(1, 0), (0, 1), (65_535, 0)]);
            let pending = waiting(random, station);
            (pending.wait, pending.identifier, pending.start) = (0, kept.0, kept.1);
        }
        5 => waiting(random, station).identifier = 0,
        6 => waiting(random, station).start = last.saturating_add(1),
        7 => {
            let shared = waiting(random, station).identifier;
            waiting(random, station).identifier = shared;
        }
        8 | 9 => share_with_a_call(random, table, station),
        _ => *station = any_field_changed(random, station),
    }
}

/// A pending request and a call's have one identifier.
fn share_with_a_call(random: &mut Random, table: &mut [Record], station: &mut Station) {
    let from = random.below(table.len() as u64) as usize;
    let (before, behind) = table.split_at_mut(from);
    let mut calls = behind.iter_mut().chain(before).filter(|r| r.is_requested());
    if let Some(call) = calls.next() {
        let pending = waiting(random, station);
        match random.chance(50) {
            true => pending.identifier = call.identifier,
            false => call.identifier = pending.identifier,
        }
    }
}

/// Any field, set to an edge of its range or to anything.
fn any_field_changed(random: &mut Random, station: &Station) -> Station {
    let mut values = station.values();
    let field = random.below(values.len() as u64) as usize;
    let widest = u64::MAX >> (64 - FIELDS[field].1);
    values[field] = match random.below(5) {
        0 => 0,
        1 => values[field].wrapping_add(1) & widest,
        2 => random.draw() & widest,
        3 => widest,
        _ => random.pick(&[1, 2, 3, 16]),
    };
    Station::from_values(&values)
}
