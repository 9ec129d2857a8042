//! Numbers 10 and 11: every sound record with every event about it, up to their
//! numbers, and answers with none pending; and wrong models of them, each of which is
//! found.
#![forbid(unsafe_code)]

use compare::check::{Comparison, Counts};
use compare::tables::{report, Laid};
use compare::{wrapped, Archive, Board, Engine};
use model::cells::{self, Cells};
use model::lent::Case;
use model::profile::Profile;
use model::wrong_states::{numbered, STATES};
use model::{every, panel, step, text, vectors, Event, Record, Station};

/// Events of the list that must find each wrong model.
const LENGTH: usize = 20_000;
/// The longest list that may be said of one.
const MOST: usize = 6;

/// The record alone on a table, with its event.
fn case(record: Record, event: Event) -> Laid {
    let station = Station {
        last_time: 1,
        ..panel::start().1
    };
    Laid::new(Case {
        table: vec![record],
        station,
        event,
    })
}

/// Every record of each direction with every event about it.
fn cases() -> Vec<Laid> {
    let with = |records: Vec<Record>, events: Vec<Event>| {
        let each = |&record: &Record| {
            let all = events.iter().map(move |&event| case(record, event));
            all.collect::<Vec<Laid>>()
        };
        records.iter().flat_map(each).collect::<Vec<Laid>>()
    };
    let mut all = with(every::incoming(), every::to_incoming());
    all.extend(with(every::outgoing(), every::to_outgoing()));
    all
}

/// What the model answers.
fn expected(laid: &Laid) -> model::Answer {
    step(
        &mut laid.table.clone(),
        &mut laid.station.clone(),
        &laid.event,
    )
}

#[test]
fn every_record_and_event_by_the_wrapper() {
    let mut counts = Counts::default();
    let mut met = Cells::default();
    for laid in cases() {
        let told = wrapped::lend(&laid);
        if laid.fault(&told, &step).is_some() {
            panic!("{}", report(&laid, &step, wrapped::lend));
        }
        counts.count(&told.answer);
        met.add(&laid.table, &laid.event, &expected(&laid));
    }
    println!("{counts:?}");
    assert_eq!(counts.0[1..6], [0; 5], "{counts:?}");
    for cell in cells::refused().into_iter().filter(|cell| cell.1 != 0) {
        assert!(met.of(cell) > 0, "{cell:?}");
    }
}

#[test]
fn every_record_and_event_by_the_server_of_each_archive() {
    for &archive in Archive::all() {
        let mut engine = Engine::start(archive);
        let part = 8 / archive.part(8) as usize;
        let cases: Vec<Laid> = cases().into_iter().step_by(part).collect();
        for chunk in cases.chunks(500) {
            for (laid, told) in chunk.iter().zip(engine.lend(chunk)) {
                let fault = laid.fault(&told, &step);
                assert_eq!(
                    fault, None,
                    "{archive:?}: {:?} {:?}",
                    laid.table, laid.event
                );
            }
        }
    }
}

/// The stored list with a call in each state, and answers with none pending.
#[test]
fn a_call_in_every_state() {
    let bytes = text::encode(&vectors::every_state()).expect("events");
    let events = panel::records(&bytes).0;
    let (mut table, mut station) = panel::start();
    let mut met = Cells::default();
    for event in &events {
        let before = table.clone();
        met.add(&before, event, &step(&mut table, &mut station, event));
    }
    let rarest = met.rarest();
    assert!(rarest.1 > 0, "{rarest:?}");
    for &archive in Archive::all() {
        let comparison = Comparison::new(archive, &step);
        let same = comparison.list("every-state", &Board::panel(), &events);
        same.unwrap_or_else(|said| panic!("{archive:?}: {said}"));
    }
}

#[test]
fn wrong_numbers() {
    for (name, number) in STATES {
        let wrong = numbered(number);
        let said = Comparison::new(Archive::Native, &wrong)
            .walk(Profile::State, 1, &Board::panel(), LENGTH)
            .err()
            .unwrap_or_else(|| panic!("{name} is not found"));
        let enough = |count| said.contains(&format!("; {count} events are enough"));
        assert!((1..=MOST).any(enough), "{name}: {said}");
    }
}
