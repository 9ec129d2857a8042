//! The generators meet every case, and each done event keeps soundness.
#![forbid(unsafe_code)]

use model::codes::*;
use model::profile::{self, Profile, Walk};
use model::random::Random;
use model::shrink::shrink;
use model::{lent, sound, step, Answer, Event, Record, Station};

/// What must hold of any one event on any table.
fn check(
    before: &(Vec<Record>, Station),
    after: &(Vec<Record>, Station),
    event: &Event,
    answer: &Answer,
) {
    if answer.code != 0 {
        assert_eq!(before, after, "{event:?}");
        assert_eq!(*answer, Answer::refused(answer.code));
        return;
    }
    assert!(sound::lent_sound(&after.0, &after.1), "{event:?}");
    assert_eq!(after.1.last_time, event.time);
    assert_eq!(after.1.limit, before.1.limit);
    assert!(answer.messages.len() <= 3);
    let remote = event.kind >= ACTIVATION_REQUEST;
    assert_eq!(
        answer.call.is_none(),
        remote || event.kind == CLOCK && before.0 == after.0
    );
    // The marks stay, and kinds 1 to 15 but the clock leave all of that part.
    let (was, is) = (before.1.remote, after.1.remote);
    assert_eq!((was.enabled, was.allowed), (is.enabled, is.allowed));
    assert!(was == is || remote || event.kind == CLOCK, "{event:?}");
    // No record but the call's own moves.
    for (at, pair) in before.0.iter().zip(&after.0).enumerate() {
        assert!(pair.0 == pair.1 || answer.call == Some(at as u8));
    }
}

#[test]
fn soundness_is_kept_on_all_profiles() {
    for profile in profile::ALL {
        for seed in 0..4 {
            let mut walk = Walk::new(profile, seed);
            for _ in 0..2000 {
                let before = (walk.table.clone(), walk.station);
                let (event, answer) = walk.advance();
                let after = (walk.table.clone(), walk.station);
                check(&before, &after, &event, &answer);
            }
        }
    }
}

#[test]
fn soundness_is_kept_from_lent_starts() {
    for seed in 0..600 {
        let mut random = Random::new(seed);
        let (table, station) = lent::sound_start(&mut random);
        assert!(sound::lent_sound(&table, &station), "seed {seed}");
        let profile = random.pick(&profile::ALL);
        let mut walk = Walk::over(profile, seed, table, station);
        for _ in 0..40 {
            let before = (walk.table.clone(), walk.station);
            let (event, answer) = walk.advance();
            let after = (walk.table.clone(), walk.station);
            check(&before, &after, &event, &answer);
        }
    }
}

/// Whether the page gives that answer to some event of that kind.
fn possible(code: u8, kind: u8) -> bool {
    match code {
        0..=3 => true,
        4 => kind <= FAR_END && !matches!(kind, OPEN_OUTGOING..=OPEN_DIVERTED | CLOCK),
        6 => matches!(kind, RESULT | ERROR) || kind >= ACTIVATION_RESULT,
        7 => kind == USER_DIVERTS,
        8 => matches!(kind, OPEN_OUTGOING..=OPEN_DIVERTED),
        9 => matches!(kind, ACTIVATION_REQUEST..=CHECK_REQUEST),
        10 => matches!(kind, USER_ALERTED..=LEG_FAILED | REROUTE..=MESSAGE),
        11 => {
            let calls = matches!(kind, USER_ALERTED..=LEG_FAILED | REROUTE | MESSAGE);
            calls || kind >= ACTIVATION_RESULT
        }
        // "5 is no longer given"
        _ => false,
    }
}

#[test]
fn lent_cases_meet_every_answer_of_every_kind() {
    let mut counts = [[0_u32; 256]; 12];
    let mut random = Random::new(7);
    for _ in 0..100_000 {
        let mut case = lent::case(&mut random);
        let before = (case.table.clone(), case.station);
        let answer = step(&mut case.table, &mut case.station, &case.event);
        check(&before, &(case.table, case.station), &case.event, &answer);
        counts[usize::from(answer.code)][usize::from(case.event.kind)] += 1;
    }
    for code in 0..=11 {
        for kind in 1..=31 {
            let met = counts[usize::from(code)][usize::from(kind)];
            assert_eq!(
                met > 20,
                possible(code, kind),
                "{code} of kind {kind}: {met}"
            );
        }
    }
}

/// How often identifier 0 was met, by where it stood.
#[derive(Debug, Default)]
struct Zeros {
    result: u32,
    error: u32,
    result_echoed: u32,
    error_echoed: u32,
    next: u32,
    open: u32,
}

impl Zeros {
    fn event(&mut self, event: &Event, answer: &Answer) {
        if event.identifier != 0 {
            return;
        }
        let echoes = |letter| answer.messages.iter().any(|m| m.letter == letter);
        match (event.kind, answer.code) {
            (RESULT, 3) => self.result += 1,
            (ERROR, 3) => self.error += 1,
            (REROUTE, 0) => {
                assert_eq!(answer.identifier, Some(0));
                self.result_echoed += u32::from(echoes('R'));
                self.error_echoed += u32::from(echoes('E'));
            }
            (RESULT | ERROR, code) => assert!(code < 3, "{event:?}: {code}"),
            _ => {}
        }
    }

    /// Counts where 0 is all that is wrong.
    fn start(&mut self, table: &[Record], station: &Station) {
        let mended = Station {
            next_identifier: 1,
            ..*station
        };
        if station.next_identifier == 0 && sound::lent_sound(table, &mended) {
            self.next += 1;
        }
        let open = |r: &Record| r.is_requested() && r.identifier == 0;
        let mended: Vec<Record> = table.iter().filter(|r| !open(r)).copied().collect();
        if mended.len() < table.len() && sound::lent_sound(&mended, station) {
            self.open += 1;
        }
    }

    fn events_met(&self) -> bool {
        let met = [
            self.result,
            self.error,
            self.result_echoed,
            self.error_echoed,
        ];
        met.iter().all(|&count| count > 4)
    }
}

#[test]
fn lent_cases_meet_identifier_0_everywhere() {
    let mut zeros = Zeros::default();
    let mut random = Random::new(13);
    for _ in 0..40_000 {
        let mut case = lent::case(&mut random);
        zeros.start(&case.table, &case.station);
        let answer = step(&mut case.table, &mut case.station, &case.event);
        zeros.event(&case.event, &answer);
    }
    let starts_met = zeros.next > 50 && zeros.open > 50;
    assert!(zeros.events_met() && starts_met, "{zeros:?}");
}

#[test]
fn profiles_meet_identifier_0_in_replies_and_invokes() {
    for profile in [Profile::Mixed, Profile::Deep, Profile::Hostile] {
        let mut zeros = Zeros::default();
        for seed in 0..4 {
            let mut walk = Walk::new(profile, seed);
            for _ in 0..3000 {
                let (event, answer) = walk.advance();
                zeros.event(&event, &answer);
            }
        }
        assert!(zeros.events_met(), "{profile:?}: {zeros:?}");
    }
}

#[test]
fn lent_requests_pass_over_identifiers_across_the_wrap() {
    let mut met = [0, 0];
    let mut random = Random::new(17);
    for _ in 0..120_000 {
        let mut case = lent::case(&mut random);
        let next = case.station.next_identifier;
        let answer = step(&mut case.table, &mut case.station, &case.event);
        let sent = answer
            .identifier
            .filter(|_| case.event.kind == USER_DIVERTS);
        met[0] += u32::from(sent.is_some_and(|id| id < next));
        met[1] += u32::from(sent == Some(u16::MAX));
    }
    assert!(met[0] > 10 && met[1] > 10, "{met:?}");
}

#[test]
fn lent_lengths_reach_from_0_to_66() {
    let mut random = Random::new(3);
    let mut met = [false; 67];
    for _ in 0..5000 {
        met[lent::length(&mut random)] = true;
    }
    assert!(met.iter().all(|&length| length));
}

#[test]
fn lists_are_deterministic() {
    for profile in profile::ALL {
        let list = profile::events(profile, 11, 300);
        assert_eq!(list, profile::events(profile, 11, 300));
        assert_ne!(list, profile::events(profile, 12, 300));
    }
}

#[test]
fn shrinking_leaves_what_matters() {
    let events = profile::events(Profile::Deep, 5, 400);
    let shown = |list: &[Event]| {
        let answers = model::panel::answers(list);
        answers.iter().any(|answer| answer.number.is_some())
    };
    assert!(shown(&events));
    let short = shrink(&events, shown);
    assert!(shown(&short));
    // Opens up to the call that shows one, a DLI1 and a DLI3.
    assert!(short.len() <= 8, "{short:?}");
    for at in 0..short.len() {
        let mut shorter = short.clone();
        shorter.remove(at);
        assert!(!shown(&shorter));
    }
    assert_eq!(shrink(&events, |_| false), events);
    assert_eq!(shrink(&[1, 2, 3], |_| true), Vec::<i32>::new());
}
