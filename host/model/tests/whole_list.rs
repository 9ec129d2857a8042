//! Notices and numbers by the call's whole list, kept beside the model: what
//! two runs side by side do not tell apart.
#![forbid(unsafe_code)]

use model::codes::*;
use model::profile::{self, Profile, Walk};
use model::{Answer, Dli1, Event, Record};

/// What reaches the CDO.
#[derive(Clone, Copy, Debug, PartialEq)]
enum Told {
    Dli1 { reason: u8, option: u8, number: u16 },
    Dli3 { allowed: bool, number: u16 },
}

/// One call so far: what reached the CDO, the places in it that showed a
/// number, and what waits, kept from the events and not from the record.
#[derive(Clone, Default)]
struct Life {
    list: Vec<Told>,
    shown: Vec<usize>,
    waiting: Vec<Told>,
}

impl Life {
    /// What a done event of an outgoing call brings to the CDO, in order.
    fn brought(&mut self, before: &Record, event: &Event, answer: &Answer) -> Vec<Told> {
        let sent = Told::Dli1 {
            reason: event.reason,
            option: event.option,
            number: event.second,
        };
        let dli3 = Told::Dli3 {
            allowed: event.flag == DLI3_ALLOWED,
            number: event.second,
        };
        let sets_up = |leg| {
            answer
                .messages
                .iter()
                .any(|m| (m.letter, m.leg) == ('S', leg))
        };
        let mut brought = match (event.kind, event.message, event.leg) {
            (REROUTE, _, _) if sets_up(1) => vec![sent],
            (REROUTE, _, _) if sets_up(2) => {
                self.waiting.push(sent);
                vec![]
            }
            (DLI1, _, _) => vec![sent],
            (MESSAGE, ALERTING | CONNECT, 2) | (MESSAGE, RELEASE_COMPLETE, 1) => {
                std::mem::take(&mut self.waiting)
            }
            (MESSAGE, CONNECT, 1) | (MESSAGE, RELEASE_COMPLETE, 2) | (OWN_END, _, _) => {
                self.waiting.clear();
                vec![]
            }
            _ => vec![],
        };
        let diverts = before.cdo == DIVERT || !brought.is_empty();
        if event.kind == MESSAGE && event.flag != NO_DLI3 && diverts {
            brought.push(dli3);
        }
        brought
    }

    /// Takes the event and hands back its notice and number.
    fn take(&mut self, before: &Record, event: &Event, answer: &Answer) -> Seen {
        let mut seen = (None, None);
        for told in self.brought(before, event, answer) {
            self.list.push(told);
            let (notice, number) = judged(&self.list, &self.shown);
            if number.is_some() {
                self.shown.push(self.list.len() - 1);
            }
            assert!(notice.is_none() || seen.0.is_none(), "two notices");
            seen = (seen.0.or(notice), seen.1.or(number));
        }
        seen
    }
}

/// Notice and number.
type Seen = (Option<u8>, Option<u16>);

/// Notice and number of the last entry, from the call's whole list: "every
/// option so far is 2, every DLI3 so far is allowed", and none was shown since
/// the last cfnr DLI1. `shown` holds the places of the DLI3s that showed one.
fn judged(list: &[Told], shown: &[usize]) -> Seen {
    let dli1s: Vec<(usize, u8, u8, u16)> = list
        .iter()
        .enumerate()
        .filter_map(|(at, told)| match *told {
            Told::Dli1 {
                reason,
                option,
                number,
            } => Some((at, reason, option, number)),
            Told::Dli3 { .. } => None,
        })
        .collect();
    let options_from = |low: u8| dli1s.iter().all(|dli1| dli1.2 >= low);
    match list[list.len() - 1] {
        Told::Dli1 { reason, .. } => {
            let tells = (dli1s.len() == 1 || reason == CFNR) && options_from(WITHOUT_NUMBER);
            (tells.then_some(reason), None)
        }
        Told::Dli3 { number, .. } => {
            let allowed = |told: &Told| !matches!(told, Told::Dli3 { allowed: false, .. });
            let opened = dli1s.iter().rev().find(|dli1| dli1.1 == CFNR);
            let since = opened.map_or(0, |dli1| dli1.0);
            let shows = options_from(WITH_NUMBER)
                && list.iter().all(allowed)
                && !shown.iter().any(|&at| at >= since);
            let nominated = dli1s[dli1s.len() - 1].3;
            let seen = if number == 0 { nominated } else { number };
            (None, shows.then_some(seen))
        }
    }
}

/// What a record keeps waiting, as the list has it.
fn kept(record: &Record) -> Vec<Told> {
    if !record.is_invoked() {
        return vec![];
    }
    let told = |dli1: &Dli1| Told::Dli1 {
        reason: dli1.reason,
        option: dli1.option,
        number: dli1.number,
    };
    record.waits.in_order().iter().map(told).collect()
}

/// What a walk has met: numbers that were a call's first, second, third and
/// later, and calls that were told 1 to 15 DLI1s at once.
#[derive(Debug, Default)]
struct Met {
    numbers: [usize; 4],
    at_once: [usize; 16],
}

/// Judges each call of a walk by its whole list.
fn follow(profile: Profile, seed: u64, events: usize) -> Met {
    let mut walk = Walk::new(profile, seed);
    let mut lives: Vec<Life> = vec![Life::default(); walk.table.len()];
    let mut met = Met::default();
    for _ in 0..events {
        let before = walk.table.clone();
        let (event, answer) = walk.advance();
        let Some(call) = answer.call.map(usize::from) else {
            continue;
        };
        let life = &mut lives[call];
        let (shown, waiting) = (life.shown.len(), life.waiting.len());
        let list = life.list.len();
        let expected = life.take(&before[call], &event, &answer);
        assert_eq!((answer.notice, answer.number), expected, "{event:?}");
        assert_eq!(kept(&walk.table[call]), life.waiting, "{event:?}");
        if life.shown.len() > shown {
            met.numbers[shown.min(3)] += 1;
        }
        if life.list.len() >= list + waiting && life.waiting.is_empty() {
            met.at_once[waiting] += 1;
        }
        if walk.table[call].is_free() {
            lives[call] = Life::default();
        }
    }
    met
}

#[test]
fn notices_and_numbers_follow_from_the_calls_whole_list() {
    for profile in profile::ALL {
        for seed in 0..6 {
            follow(profile, seed, 1500);
        }
    }
}

#[test]
fn the_second_profile_shows_numbers_again() {
    let met = follow(Profile::Second, 1, 1000);
    assert!(met.numbers.iter().all(|&numbers| numbers > 10), "{met:?}");
}

#[test]
fn the_chain_profile_tells_up_to_fifteen_at_once() {
    let met = follow(Profile::Chain, 1, 20_000);
    assert!(met.at_once.iter().all(|&calls| calls > 4), "{met:?}");
    assert!(met.at_once[15] > 100, "{met:?}");
    assert!(met.numbers.iter().all(|&numbers| numbers > 4), "{met:?}");
}
