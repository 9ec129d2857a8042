//! Two lists, one with stricter options and forbidden DLI3s: the stricter
//! one tells the caller no more, and all else is equal.
#![forbid(unsafe_code)]

use model::codes::*;
use model::profile::{Profile, Walk};
use model::random::Random;
use model::{lent, panel, step, Answer, Event, Record, Station};

/// The event with a smaller option or a forbidden DLI3, if it has either.
fn tightened(random: &mut Random, event: &Event) -> Event {
    let mut strict = *event;
    match event.kind {
        REROUTE | DLI1 if event.well_made() => {
            strict.option = random.byte(0, event.option);
        }
        MESSAGE if event.flag == DLI3_ALLOWED => strict.flag = DLI3_FORBIDDEN,
        _ => {}
    }
    strict
}

/// Every field but those that tightening may move: the options that wait, and
/// three of the history.
fn unmoved(record: &Record) -> Record {
    let mut waits = record.waits;
    waits.first.option = 0;
    waits.later.iter_mut().for_each(|later| later.option = 0);
    Record {
        waits,
        strictest: 0,
        forbidden: 0,
        shown: 0,
        ..*record
    }
}

fn related(strict: &Record, wide: &Record) -> bool {
    let hidden = strict.strictest < WITH_NUMBER || strict.forbidden == 1;
    let waiting = (strict.waits.in_order(), wide.waits.in_order());
    unmoved(strict) == unmoved(wide)
        && (waiting.0.iter().zip(&waiting.1)).all(|(s, w)| s.option <= w.option)
        && strict.strictest <= wide.strictest
        && strict.forbidden >= wide.forbidden
        && strict.shown <= wide.shown
        && (strict.shown == wide.shown || hidden)
}

/// Equal but for a notice or a number that only the wide run has.
fn no_more_told(strict: &Answer, wide: &Answer) -> bool {
    let no_more = Answer {
        notice: strict.notice,
        number: strict.number,
        ..wide.clone()
    };
    *strict == no_more
        && (strict.notice.is_none() || strict.notice == wide.notice)
        && (strict.number.is_none() || strict.number == wide.number)
}

/// Runs a walk and its tightened list side by side; counts what was hidden.
fn compare(profile: Profile, seed: u64, start: (Vec<Record>, Station), events: usize) -> [u32; 2] {
    let mut random = Random::new(seed ^ 0xD3);
    let mut walk = Walk::over(profile, seed, start.0.clone(), start.1);
    let (mut table, mut station) = start;
    let mut touched = vec![false; table.len()];
    let mut hidden = [0, 0];
    let rate = random.pick(&[2, 10, 50, 100]);
    for _ in 0..events {
        let (event, wide) = walk.advance();
        let strict_event = match random.chance(rate) {
            true => tightened(&mut random, &event),
            false => event,
        };
        let strict = step(&mut table, &mut station, &strict_event);
        assert!(
            no_more_told(&strict, &wide),
            "{event:?} {strict:?} {wide:?}"
        );
        assert_eq!(station, walk.station);
        assert!(table.iter().zip(&walk.table).all(|(s, w)| related(s, w)));
        if let Some(call) = wide.call.map(usize::from) {
            touched[call] |= strict_event != event;
            // A life that no tightened event has reached is the same in both.
            assert!(touched[call] || (strict == wide && table[call] == walk.table[call]));
            touched[call] &= !table[call].is_free();
        }
        hidden[0] += u32::from(strict.notice != wide.notice);
        hidden[1] += u32::from(strict.number != wide.number);
    }
    hidden
}

#[test]
fn a_stricter_list_tells_no_more() {
    let mut hidden = [0, 0];
    for seed in 0..60 {
        for profile in [
            Profile::Deep,
            Profile::Mixed,
            Profile::Hostile,
            Profile::Second,
        ] {
            let found = compare(profile, seed, panel::start(), 600);
            hidden = [hidden[0] + found[0], hidden[1] + found[1]];
        }
    }
    // Both runs must differ often, or the comparison says little.
    assert!(hidden[0] > 500 && hidden[1] > 300, "{hidden:?}");
}

#[test]
fn a_stricter_list_tells_no_more_from_lent_tables() {
    for seed in 0..300 {
        let start = lent::sound_start(&mut Random::new(seed));
        compare(Profile::Deep, seed, start.clone(), 60);
        compare(Profile::Chain, seed, start, 60);
    }
}

#[test]
fn a_stricter_list_of_waiting_invokes_tells_no_more() {
    let mut hidden = [0, 0];
    for seed in 0..60 {
        let found = compare(Profile::Chain, seed, panel::start(), 600);
        hidden = [hidden[0] + found[0], hidden[1] + found[1]];
    }
    assert!(hidden[0] > 200 && hidden[1] > 200, "{hidden:?}");
}
