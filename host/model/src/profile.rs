//! Deterministic lists of events, in profiles that each press on one part of
//! the page. The same profile, seed and start give the same list.

use crate::answer::Answer;
use crate::codes::*;
use crate::event::Event;
use crate::forwarding;
use crate::guided;
use crate::panel;
use crate::random::Random;
use crate::record::Record;
use crate::remote_events;
use crate::station::Station;
use crate::step::step;
use crate::untimely;

#[derive(Clone, Copy, Debug, PartialEq, Eq, Hash)]
pub enum Profile {
    /// Some of everything.
    Mixed,
    /// Few calls, led far: Invoked, several DLI1 and DLI3, grants, requests.
    Deep,
    /// All records used most of the time.
    Full,
    /// Many requests due, clocks at the edge of T1.
    Clock,
    /// Diverts upon diverts with many requests open.
    Wrap,
    /// Any bytes, damaged fields, backward clocks, wrong calls.
    Hostile,
    /// Few outgoing calls that live long and show number after number.
    Second,
    /// Few outgoing calls whose leg 2 is forwarded on, to the fifteenth wait
    /// and past it.
    Chain,
    /// Kinds 16 to 31 among few calls with open requests.
    Remote,
    /// Few calls that meet events too early or twice.
    State,
}

pub const ALL: [Profile; 10] = [
    Profile::Mixed,
    Profile::Deep,
    Profile::Full,
    Profile::Clock,
    Profile::Wrap,
    Profile::Hostile,
    Profile::Second,
    Profile::Chain,
    Profile::Remote,
    Profile::State,
];

/// How a profile chooses; chances are in percent, tried in this order.
struct Taste {
    wild: u64,
    bent: u64,
    any: u64,
    clock: u64,
    open: u64,
    /// Records in use up to which calls are opened.
    crowd: usize,
    backward: u64,
    /// Chance that the time jumps by about T1.
    leap: u64,
}

impl Profile {
    pub fn name(self) -> &'static str {
        match self {
            Profile::Mixed => "mixed",
            Profile::Deep => "deep",
            Profile::Full => "full",
            Profile::Clock => "clock",
            Profile::Wrap => "wrap",
            Profile::Hostile => "hostile",
            Profile::Second => "second",
            Profile::Chain => "chain",
            Profile::Remote => "remote",
            Profile::State => "state",
        }
    }

    fn taste(self) -> Taste {
        let taste = |wild, bent, any, clock, open, crowd, backward, leap| Taste {
            wild,
            bent,
            any,
            clock,
            open,
            crowd,
            backward,
            leap,
        };
        match self {
            Profile::Mixed => taste(1, 4, 12, 4, 25, 14, 1, 4),
            Profile::Deep => taste(0, 0, 2, 3, 30, 6, 0, 3),
            Profile::Full => taste(0, 1, 4, 2, 75, 64, 0, 2),
            Profile::Clock => taste(0, 1, 2, 30, 35, 40, 1, 12),
            Profile::Wrap => taste(0, 0, 3, 1, 60, 64, 0, 1),
            Profile::Hostile => taste(15, 25, 25, 4, 25, 10, 12, 6),
            Profile::Second => taste(0, 0, 1, 1, 30, 4, 0, 1),
            Profile::Chain => taste(0, 1, 1, 1, 20, 3, 0, 1),
            Profile::Remote => taste(0, 3, 2, 12, 15, 5, 1, 3),
            Profile::State => taste(0, 1, 1, 1, 20, 8, 0, 1),
        }
    }
}

/// A list in the making: the model runs beside it, so that each event suits
/// the table that the ones before have left.
#[derive(Clone, Debug)]
pub struct Walk {
    profile: Profile,
    random: Random,
    pub table: Vec<Record>,
    pub station: Station,
}

impl Walk {
    /// From the panel's start.
    pub fn new(profile: Profile, seed: u64) -> Walk {
        let (table, station) = panel::start();
        Walk::over(profile, seed, table, station)
    }

    /// From any table and station.
    pub fn over(profile: Profile, seed: u64, table: Vec<Record>, station: Station) -> Walk {
        Walk {
            profile,
            random: Random::new(seed),
            table,
            station,
        }
    }

    /// The next event, without taking it.
    pub fn propose(&mut self) -> Event {
        let taste = self.profile.taste();
        let event = self.choose(&taste);
        let event = if self.random.chance(taste.bent) {
            guided::bent(&mut self.random, event)
        } else {
            event
        };
        Event {
            time: self.time(&taste, event.kind),
            ..event
        }
    }

    /// The next event and its answer; table and station move on.
    pub fn advance(&mut self) -> (Event, Answer) {
        let event = self.propose();
        let answer = step(&mut self.table, &mut self.station, &event);
        (event, answer)
    }

    fn choose(&mut self, taste: &Taste) -> Event {
        let random = &mut self.random;
        if random.chance(taste.wild) {
            return guided::wild(random);
        }
        if random.chance(taste.any) {
            return guided::any_well_made(random, &self.table);
        }
        if random.chance(taste.clock) {
            return Event {
                kind: CLOCK,
                ..Event::default()
            };
        }
        if self.profile == Profile::Remote && random.chance(60) {
            return remote_events::about_the_station(random, &self.table, &self.station);
        }
        let used = self.table.iter().filter(|r| !r.is_free()).count();
        if used < taste.crowd.min(self.table.len()) && random.chance(taste.open) {
            return self.opening();
        }
        // A full table must meet an open now and then.
        if used == self.table.len() && random.chance(15) {
            return guided::open(random);
        }
        match self.profile {
            Profile::Wrap | Profile::Clock | Profile::Remote if random.chance(60) => {
                self.divert_somewhere()
            }
            Profile::Second => {
                let event = guided::about_a_call(random, &self.table);
                guided::open_handed(random, event)
            }
            Profile::Chain => forwarding::about_a_call(random, &self.table),
            Profile::State if random.chance(60) => untimely::about_a_call(random, &self.table),
            _ => guided::about_a_call(random, &self.table),
        }
    }

    /// Wrap, Clock and Remote live on incoming calls, Second and Chain on outgoing
    /// ones.
    fn opening(&mut self) -> Event {
        let event = guided::open(&mut self.random);
        let kind = match self.profile {
            Profile::Wrap | Profile::Clock | Profile::Remote if self.random.chance(80) => {
                OPEN_INCOMING
            }
            Profile::Second | Profile::Chain if self.random.chance(95) => OPEN_OUTGOING,
            _ => return event,
        };
        Event {
            kind,
            first: event.first,
            ..Event::default()
        }
    }

    /// A divert that the first idle call from some place on takes.
    fn divert_somewhere(&mut self) -> Event {
        let random = &mut self.random;
        let length = self.table.len().max(1);
        let from = random.below(length as u64) as usize;
        let limit = self.station.limit;
        let idle = |r: &Record| {
            let called = r.direction == INCOMING && r.basic != ACTIVE;
            called && !r.is_requested() && !r.is_granted() && r.counter < limit
        };
        let found = (0..self.table.len())
            .map(|ahead| (from + ahead) % length)
            .find(|&at| idle(&self.table[at]));
        match found {
            None => guided::about_a_call(random, &self.table),
            Some(at) => {
                let reason = match self.table[at].basic {
                    RECEIVED => CFNR,
                    _ => random.pick(&[CFU, CFB]),
                };
                Event {
                    call: at as u8,
                    ..guided::divert(random, reason)
                }
            }
        }
    }

    fn time(&mut self, taste: &Taste, kind: u8) -> u64 {
        let random = &mut self.random;
        let last = self.station.last_time;
        if random.chance(taste.backward) {
            let back = random.pick(&[1, 1, 7, 10_000, u64::MAX]);
            return last.saturating_sub(back);
        }
        // A clock at the edge of some request's timer, if that is not gone by.
        let requested = self.table.iter().filter(|r| r.is_requested());
        let edges = requested.map(|r| r.start.saturating_add(T1));
        let mut edges: Vec<u64> = edges.collect();
        let pending = remote_events::edges(&self.station.remote);
        match self.profile == Profile::Remote && !pending.is_empty() && random.chance(60) {
            true => edges = pending,
            false => edges.extend(pending),
        }
        if kind == CLOCK && !edges.is_empty() && random.chance(60) {
            let edge = random.pick(&edges);
            let around = [edge - 1, edge, edge, edge.saturating_add(1)];
            return random.pick(&around).max(last);
        }
        let pause = match random.chance(taste.leap) {
            true => random.pick(&[T1 - 1, T1, T1 + 1, 15_000, 3 * T1]),
            false => random.pick(&[0, 0, 1, 5, 40, 300]),
        };
        last.saturating_add(pause)
    }
}

/// The first events of a profile from the panel's start.
pub fn events(profile: Profile, seed: u64, count: usize) -> Vec<Event> {
    let mut walk = Walk::new(profile, seed);
    (0..count).map(|_| walk.advance().0).collect()
}
