//! Before anything is measured: the plain engine and the library say of each
//! event what the model says, and leave the same records and station.

use crate::workload::Workload;
use crate::{convert, library, Run, Step};
use model::codes::*;
use model::event::SIZE;
use model::lent::{self, Case};
use model::profile;
use model::random::Random;
use model::record::FIELDS;
use model::remote::Pending;
use model::{guided, panel, station, vectors, Event, Record, Station};
use plain::answer::Answer;
use plain::call::Call;

/// Lent tables with an event each, sound and damaged.
const CASES: usize = 100_000;
/// Events of each of the model's profiles.
const PLAYED: usize = 10_000;
/// Well-made events of which every byte is set to every value.
const BENT: usize = 150;

pub fn check(works: &[Workload]) {
    let mut random = Random::new(2);
    for _ in 0..CASES {
        same(&lent::case(&mut random));
    }
    for profile in profile::ALL {
        played(profile.name(), &profile::events(profile, 3, PLAYED));
    }
    for (name, bytes) in vectors::all() {
        played(name, &panel::records(&bytes).0);
    }
    every_field(&mut random);
    one_mark();
    works.iter().for_each(every_bit);
}

/// What an engine makes of a case: the answer, the station and the records.
type Outcome = (Answer, plain::station::Station, Vec<Call>);

fn by_model(case: &Case) -> Outcome {
    let (mut table, mut station) = (case.table.clone(), case.station);
    let answer = model::step(&mut table, &mut station, &case.event);
    (
        convert::answer(&answer),
        convert::station(&station),
        convert::table(&table),
    )
}

fn by_step(step: Step, case: &Case) -> Outcome {
    let (mut table, mut station) = (convert::table(&case.table), convert::station(&case.station));
    let answer = step(&mut table, &mut station, &convert::event(&case.event));
    (answer, station, table)
}

/// The same of a run of one event, which tells of its answer only whether it is done.
fn by_run(run: Run, case: &Case) -> (bool, plain::station::Station, Vec<Call>) {
    let (mut table, mut station) = (convert::table(&case.table), convert::station(&case.station));
    let done = run(&mut table, &mut station, &case.event.encode());
    (done == 1, station, table)
}

fn same(case: &Case) {
    let (answer, station, table) = by_model(case);
    let stepped = (answer, station, table.clone());
    let engines: [(&str, Step); 3] = [
        ("plain", plain::lent::step),
        ("plain by value", library::plain_step),
        ("library", library::step),
    ];
    for (engine, step) in engines {
        assert!(by_step(step, case) == stepped, "{engine}: {case:?}");
    }
    let ran = (answer.code == 0, station, table);
    assert!(
        by_run(plain::lent::run, case) == ran,
        "plain's run: {case:?}"
    );
    assert!(by_run(library::run, case) == ran, "library's run: {case:?}");
}

/// Well-made events with one byte set to every value.
fn every_field(random: &mut Random) {
    for _ in 0..BENT {
        let station = lent::station(random);
        let table = lent::table(random, 2, &station);
        let event = Event {
            time: station.last_time,
            ..guided::any_well_made(random, &table)
        };
        for (at, value) in (0..SIZE).flat_map(|at| (0..=u8::MAX).map(move |value| (at, value))) {
            let mut bent = event.encode();
            bent[at] = value;
            same(&Case {
                table: table.clone(),
                station,
                event: Event::decode(&bent),
            });
        }
    }
}

/// Each bit of the station and of each record of a table in use turned over; of the
/// station also with a request of each sort.
fn every_bit(work: &Workload) {
    let mut waits = work.start;
    for (sort, pending) in waits.remote.pending.iter_mut().enumerate() {
        // behind those of the table
        let identifier = 1_000 + sort as u16;
        let start = work.start.last_time;
        let wait = WAIT;
        *pending = Pending {
            wait,
            identifier,
            start,
        };
    }
    let bits = station::FIELDS.into_iter().enumerate();
    for (field, bit) in bits.flat_map(|(field, (_, width))| (0..width).map(move |bit| (field, bit)))
    {
        for start in [work.start, waits] {
            let mut values = start.values();
            values[field] ^= 1 << bit;
            same(&Case {
                table: work.records.clone(),
                station: Station::from_values(&values),
                event: work.first,
            });
        }
    }

    let bits = FIELDS.into_iter().enumerate();
    for (field, bit) in bits.flat_map(|(field, (_, width))| (0..width).map(move |bit| (field, bit)))
    {
        for at in 0..work.records.len() {
            let mut values = work.records[at].values();
            values[field] ^= 1 << bit;
            let mut table = work.records.clone();
            table[at] = Record::from_values(&values);
            same(&Case {
                table,
                station: work.start,
                event: work.first,
            });
        }
    }
}

/// Identifiers whose marks are the same one, in the plain engine's test and in
/// the library's.
fn one_mark() {
    let request = |i: u16| Record {
        direction: INCOMING,
        basic: PROCEEDING,
        own: 1,
        cds: REQUESTED,
        reason: CFU,
        identifier: 1 + 1024 * i,
        ..Record::default()
    };
    let mut case = Case {
        table: (0..64).map(request).collect(),
        station: Station::short(),
        event: Event {
            kind: CLOCK,
            ..Event::default()
        },
    };
    same(&case);
    assert!(by_model(&case).0.code == 0);
    // 68 in all, those of the station on the same mark
    let mut full = case.clone();
    for (sort, pending) in full.station.remote.pending.iter_mut().enumerate() {
        pending.wait = WAIT;
        pending.identifier = 2 + 1024 * sort as u16;
    }
    same(&full);
    assert!(by_model(&full).0.code == 0);
    for sort in 0..SORTS {
        let mut shared = full.clone();
        shared.station.remote.pending[sort].identifier = case.table[63].identifier;
        same(&shared);
        assert!(by_model(&shared).0.code == 1);
        shared.station = full.station;
        shared.station.remote.pending[sort].identifier = 2 + 1024 * (sort as u16 ^ 1);
        same(&shared);
        assert!(by_model(&shared).0.code == 1);
    }
    drawn_beside_marks(&full);
    case.table[63].identifier = case.table[0].identifier;
    same(&case);
}

/// A divert takes the next identifier where it has no mark, where it has the
/// mark of others that are not the same, and not where an open request has it.
fn drawn_beside_marks(full: &Case) {
    let mut divert = full.clone();
    divert.table[5] = Record {
        direction: INCOMING,
        basic: PROCEEDING,
        own: 1,
        ..Record::default()
    };
    divert.event = Event {
        kind: USER_DIVERTS,
        call: 5,
        reason: CFU,
        second: 7,
        ..Event::default()
    };
    // 1 is a call's and 2 the station's
    for (next, drawn) in [
        (7, 7),
        (1 + 512, 1 + 512),
        (2 + 512, 2 + 512),
        (1, 3),
        (2, 3),
    ] {
        divert.station.next_identifier = next;
        same(&divert);
        let (answer, ..) = by_model(&divert);
        assert!(answer.code == 0 && answer.identifier == drawn);
    }
}

/// A list of events from the panel's start, one by one, and all of it in a run.
fn played(name: &str, events: &[Event]) {
    let (mut records, mut stands) = panel::start();
    let (table, station) = (convert::table(&records), convert::station(&stands));
    let mut done = 0;
    for &event in events {
        same(&Case {
            table: records.clone(),
            station: stands,
            event,
        });
        let answer = model::step(&mut records, &mut stands, &event);
        done += usize::from(answer.code == 0);
    }
    let bytes = panel::bytes(events);
    let left = (done, convert::station(&stands), convert::table(&records));
    for (engine, run) in [
        ("plain", plain::lent::run as Run),
        ("library", library::run),
    ] {
        let (mut table, mut station) = (table.clone(), station);
        let done = run(&mut table, &mut station, &bytes);
        assert!((done, station, table) == left, "{engine}: a run of {name}");
    }
}
