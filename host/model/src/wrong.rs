//! Wrong models of document 02, Seven, each of which a comparison must find.

use crate::answer::Answer;
use crate::codes::*;
use crate::event::Event;
use crate::record::Record;
use crate::remote::{self, Pending};
use crate::sound;
use crate::station::{self, Station};
use crate::step::{refusal, step};

/// Takes one event as `step` does.
pub type Step = fn(&mut [Record], &mut Station, &Event) -> Answer;

/// What each gets wrong.
pub const REMOTE: [(&str, Step); 18] = [
    ("T2 of 15,000 ms", short_t2),
    ("T2 ended before a T1", t2_before_t1),
    ("T5 ended before T2", t5_before_t2),
    ("a timer that ends 1 ms late", late),
    ("a result that ends another sort", any_sort),
    ("a result with 0 as 3", zero_as_3),
    ("an error that leaves the request", error_leaves),
    ("a 9 that draws an identifier", nine_draws),
    (
        "a request with the identifier of a call's",
        draws_over_calls,
    ),
    ("a divert with a pending identifier", draws_over_pending),
    ("stored when not enabled", stored_when_not_enabled),
    ("a check answered by the enabled mark", check_by_enabled),
    ("a deactivation that reads the mark", deactivation_reads),
    (
        "a deactivation that leaves the destination",
        leaves_destination,
    ),
    ("a second activation that is dropped", second_dropped),
    ("a destination that is not told", not_told),
    ("an invoke without its far panel", no_far_panel),
    ("kinds 16 to 31 as 3", all_as_3),
];

fn end(pending: &mut Pending) -> Answer {
    let identifier = Some(pending.identifier);
    *pending = Pending::default();
    Answer {
        identifier,
        ..Answer::default()
    }
}

/// A done event's work in place of the right one.
fn done(station: &mut Station, event: &Event, answer: Answer) -> Answer {
    station.last_time = event.time;
    answer
}

fn short_t2(table: &mut [Record], station: &mut Station, event: &Event) -> Answer {
    let answer = step(table, station, event);
    let activation = &mut station.remote.pending[ACTIVATION];
    let idle = event.kind == CLOCK && answer == Answer::default();
    match idle && activation.is_due(event.time, 15_000) {
        true => end(activation),
        false => answer,
    }
}

fn first_ended(
    table: &mut [Record],
    station: &mut Station,
    event: &Event,
    sort: usize,
) -> Option<Answer> {
    let good = event.kind == CLOCK && refusal(table, station, event) == 0;
    let due = station.remote.pending[sort].is_due(event.time, TIMERS[sort]);
    (good && due).then(|| {
        let answer = end(&mut station.remote.pending[sort]);
        done(station, event, answer)
    })
}

fn t2_before_t1(table: &mut [Record], station: &mut Station, event: &Event) -> Answer {
    first_ended(table, station, event, ACTIVATION).unwrap_or_else(|| step(table, station, event))
}

fn t5_before_t2(table: &mut [Record], station: &mut Station, event: &Event) -> Answer {
    let called = table.iter().any(Record::is_requested);
    let first = match called {
        true => None,
        false => first_ended(table, station, event, CHECK),
    };
    first.unwrap_or_else(|| step(table, station, event))
}

fn late(table: &mut [Record], station: &mut Station, event: &Event) -> Answer {
    if event.kind != CLOCK || refusal(table, station, event) != 0 {
        return step(table, station, event);
    }
    let held = station.remote.pending;
    for (pending, length) in station.remote.pending.iter_mut().zip(TIMERS) {
        if event.time - pending.start == length {
            *pending = Pending::default();
        }
    }
    let answer = step(table, station, event);
    for (sort, pending) in held.into_iter().enumerate() {
        if event.time - pending.start == TIMERS[sort] {
            station.remote.pending[sort] = pending;
        }
    }
    answer
}

fn any_sort(table: &mut [Record], station: &mut Station, event: &Event) -> Answer {
    let answer = step(table, station, event);
    if !matches!(answer.code, 6 | 11) || event.kind < ACTIVATION_RESULT {
        return answer;
    }
    let mut pending = station.remote.pending.iter_mut();
    match pending.find(|p| p.waits() && p.identifier == event.identifier) {
        None => answer,
        Some(other) => {
            *other = Pending::default();
            done(station, event, Answer::default())
        }
    }
}

fn zero_as_3(table: &mut [Record], station: &mut Station, event: &Event) -> Answer {
    let answer = step(table, station, event);
    let zero = event.kind >= ACTIVATION_RESULT && event.identifier == 0;
    match zero && matches!(answer.code, 6 | 11) {
        true => Answer::refused(3),
        false => answer,
    }
}

fn error_leaves(table: &mut [Record], station: &mut Station, event: &Event) -> Answer {
    let held = station.remote.pending;
    let answer = step(table, station, event);
    if event.kind >= ACTIVATION_ERROR {
        station.remote.pending = held;
    }
    answer
}

fn nine_draws(table: &mut [Record], station: &mut Station, event: &Event) -> Answer {
    let answer = step(table, station, event);
    if answer.code == 9 {
        station.next_identifier = station::after(station.next_identifier);
    }
    answer
}

fn draws_over_calls(table: &mut [Record], station: &mut Station, event: &Event) -> Answer {
    let asks = matches!(event.kind, ACTIVATION_REQUEST..=CHECK_REQUEST);
    match asks && refusal(table, station, event) == 0 {
        true => {
            let answer = remote::act(&[], station, event);
            done(station, event, answer)
        }
        false => step(table, station, event),
    }
}

fn draws_over_pending(table: &mut [Record], station: &mut Station, event: &Event) -> Answer {
    if event.kind != USER_DIVERTS || refusal(table, station, event) != 0 {
        return step(table, station, event);
    }
    let held = std::mem::take(&mut station.remote.pending);
    let answer = step(table, station, event);
    station.remote.pending = held;
    answer
}

fn stored_when_not_enabled(table: &mut [Record], station: &mut Station, event: &Event) -> Answer {
    let answer = step(table, station, event);
    if event.kind == ACTIVATION_INVOKE && answer.code == 0 {
        station.remote.kept[usize::from(event.reason - CFU)] = event.second;
    }
    answer
}

fn check_by_enabled(table: &mut [Record], station: &mut Station, event: &Event) -> Answer {
    let allowed = station.remote.allowed;
    if event.kind != CHECK_INVOKE || !sound::lent_sound(table, station) {
        return step(table, station, event);
    }
    station.remote.allowed = station.remote.enabled;
    let answer = step(table, station, event);
    station.remote.allowed = allowed;
    answer
}

fn deactivation_reads(table: &mut [Record], station: &mut Station, event: &Event) -> Answer {
    let held = station.remote;
    let mut answer = step(table, station, event);
    if event.kind == DEACTIVATION_INVOKE && answer.code == 0 && held.enabled == 0 {
        station.remote = held;
        answer.messages[0].letter = 'e';
    }
    answer
}

fn leaves_destination(table: &mut [Record], station: &mut Station, event: &Event) -> Answer {
    let kept = station.remote.kept;
    let answer = step(table, station, event);
    if event.kind == DEACTIVATION_INVOKE {
        station.remote.kept = kept;
    }
    answer
}

fn second_dropped(table: &mut [Record], station: &mut Station, event: &Event) -> Answer {
    let kept = station.remote.kept;
    let answer = step(table, station, event);
    for (place, stood) in station.remote.kept.iter_mut().zip(kept) {
        if event.kind == ACTIVATION_INVOKE && stood != 0 {
            *place = stood;
        }
    }
    answer
}

fn not_told(table: &mut [Record], station: &mut Station, event: &Event) -> Answer {
    let mut answer = step(table, station, event);
    let results = answer.messages.iter_mut().filter(|m| m.letter == 'r');
    results.for_each(|result| result.destination = 0);
    answer
}

fn no_far_panel(table: &mut [Record], station: &mut Station, event: &Event) -> Answer {
    let mut answer = step(table, station, event);
    if matches!(event.kind, ACTIVATION_REQUEST..=CHECK_REQUEST) && answer.code == 0 {
        answer.messages[0].number = 0;
    }
    answer
}

fn all_as_3(table: &mut [Record], station: &mut Station, event: &Event) -> Answer {
    let remote = (ACTIVATION_REQUEST..=CHECK_ERROR).contains(&event.kind);
    match remote && !matches!(refusal(table, station, event), 1 | 2) {
        true => Answer::refused(3),
        false => step(table, station, event),
    }
}
