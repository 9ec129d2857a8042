//! Numbers 10 and 11 are what the sentence of document 02, Eight, says over
//! all sound records, and what its table says row by row.
#![forbid(unsafe_code)]

use model::cells::{Cells, REMOTE_ROWS, ROWS};
use model::codes::*;
use model::{every, panel, states, step, Event, Record, Station};

/// The records of each direction and the events about them.
fn directions() -> [(Vec<Record>, Vec<Event>); 2] {
    [
        (every::incoming(), every::to_incoming()),
        (every::outgoing(), every::to_outgoing()),
    ]
}

fn station() -> Station {
    Station {
        last_time: 1,
        ..panel::start().1
    }
}

/// The answer's number on a table of this record alone.
fn code(record: &Record, event: &Event) -> u8 {
    step(&mut [*record], &mut station(), event).code
}

#[test]
fn there_are_so_many_records_and_events() {
    let counts = directions().map(|(records, events)| (records.len(), events.len()));
    assert_eq!(counts, [(104, 19), (78, 259)]);
    for (records, _) in directions() {
        for basic in PROCEEDING..=ACTIVE {
            assert!(records.iter().any(|record| record.basic == basic));
        }
    }
}

/// "10 when no sound record in that basic state takes the event, 11 when only
/// a service state [...] forbids it; 10 is tested first"
#[test]
fn the_sentence_over_all_sound_records() {
    for (records, events) in directions() {
        for event in &events {
            for basic in PROCEEDING..=ACTIVE {
                let there = records.iter().filter(|record| record.basic == basic);
                let there: Vec<&Record> = there.collect();
                let taken = |record: &&Record| !states::refuses(record, event);
                let some = there.iter().any(taken);
                assert_eq!(states::no_record_takes(basic, event), !some, "{event:?}");
                // 6 and 7 may come behind the rules, but not on every record.
                let done = there.iter().any(|record| code(record, event) == 0);
                assert_eq!(done, some, "{event:?} in {basic}");
                for record in there {
                    let expected = match (some, taken(&record)) {
                        (false, _) => 10,
                        (true, false) => 11,
                        (true, true) => 0,
                    };
                    let found = match code(record, event) {
                        6 | 7 => 0,
                        code => code,
                    };
                    assert_eq!(found, expected, "{event:?} on {record:?}");
                }
            }
        }
    }
}

/// Each row is 10 for all records in its first column, and 11 for some in its
/// second; elsewhere it is neither.
#[test]
fn the_table_row_by_row() {
    let mut cells = Cells::default();
    for (records, events) in directions() {
        for event in &events {
            let rows = ROWS.iter().filter(|row| (row.about)(event));
            assert_eq!(rows.count(), 1, "{event:?}");
            for record in &records {
                let answer = step(&mut [*record], &mut station(), event);
                assert!(!matches!(answer.code, 1..=5), "{event:?} on {record:?}");
                cells.add(&[*record], event, &answer);
            }
        }
    }
    for row in &ROWS {
        for basic in PROCEEDING..=ACTIVE {
            let met = [0, 10, 11].map(|code| cells.of((row.name, basic, code)) > 0);
            let (never, forbidden) = (
                row.never_taken.contains(&basic),
                row.forbidden.contains(&basic),
            );
            assert_eq!(met, [!never, never, forbidden], "{} in {basic}", row.name);
        }
    }
}

/// "a result or error with none pending" is always 11, whatever else waits.
#[test]
fn answers_with_none_pending() {
    for (kind, row) in (ACTIVATION_RESULT..=CHECK_ERROR).zip(&REMOTE_ROWS) {
        let sort = model::remote::sort(kind);
        for (identifier, others) in [(0, 0), (7, 0), (7, 1), (65_535, 1)] {
            let mut event = Event {
                kind,
                identifier,
                time: 1,
                ..Event::default()
            };
            event.second = u16::from(kind == INTERROGATION_RESULT);
            assert!(event.well_made() && (row.about)(&event));
            let mut station = station();
            for (other, pending) in station.remote.pending.iter_mut().enumerate() {
                if other != sort {
                    pending.wait = others;
                    pending.identifier = u16::from(others) * (7 + other as u16);
                }
            }
            let answer = step(&mut [Record::default()], &mut station, &event);
            assert_eq!(answer.code, 11, "{event:?}");
        }
    }
}

/// 10 and 11 stand where 5 stood: before 6 and 7.
#[test]
fn before_the_identifier_and_the_limit() {
    let mut met = [0; 2];
    for record in every::incoming() {
        for event in every::to_incoming() {
            let deep = event.kind == USER_DIVERTS && record.counter == MOST_DIVERSIONS;
            let other =
                matches!(event.kind, RESULT | ERROR) && event.identifier != record.identifier;
            let code = code(&record, &event);
            match states::refuses(&record, &event) {
                true => assert!(matches!(code, 10 | 11)),
                false if deep => assert_eq!(code, 7),
                false if other => assert_eq!(code, 6),
                false => assert_eq!(code, 0),
            }
            met[0] += u32::from(deep && matches!(code, 10 | 11));
            met[1] += u32::from(other && matches!(code, 10 | 11));
        }
    }
    assert!(met.iter().all(|&count| count > 20), "{met:?}");
}
