//! The generators meet each cell of the table of document 02, Eight, and each
//! wrong model of it.
#![forbid(unsafe_code)]

use model::cells::Cells;
use model::profile::{Profile, Walk};
use model::random::Random;
use model::wrong_states::{numbered, Number, STATES};
use model::{lent, panel, step, text, vectors, Event, Record, Station};

/// The cells that are met, and how many events each wrong model answers
/// otherwise.
struct Met {
    cells: Cells,
    wrong: [u32; STATES.len()],
}

impl Met {
    fn none() -> Met {
        Met {
            cells: Cells::default(),
            wrong: [0; STATES.len()],
        }
    }

    fn add(&mut self, table: &[Record], station: &Station, event: &Event) {
        let taken = |step: &dyn Fn(&mut [Record], &mut Station, &Event) -> model::Answer| {
            step(&mut table.to_vec(), &mut station.clone(), event)
        };
        let answer = taken(&step);
        self.cells.add(table, event, &answer);
        if !matches!(answer.code, 10 | 11) {
            return;
        }
        for (count, (_, number)) in self.wrong.iter_mut().zip(STATES) {
            let number: Number = number;
            *count += u32::from(taken(&numbered(number)) != answer);
        }
    }

    fn each_at_least(&self, least: u32) {
        let rarest = self.cells.rarest();
        assert!(rarest.1 >= least, "{rarest:?}");
        for (count, (name, _)) in self.wrong.into_iter().zip(STATES) {
            assert!(count >= least, "{name}: {count}");
        }
    }
}

#[test]
fn by_lent_cases() {
    let mut met = Met::none();
    let mut random = Random::new(8);
    for _ in 0..100_000 {
        let case = lent::case(&mut random);
        met.add(&case.table, &case.station, &case.event);
    }
    met.each_at_least(30);
}

fn by_walk(profile: Profile) -> Met {
    let mut met = Met::none();
    for seed in 0..4 {
        let mut walk = Walk::new(profile, seed);
        for _ in 0..10_000 {
            let event = walk.propose();
            met.add(&walk.table, &walk.station, &event);
            step(&mut walk.table, &mut walk.station, &event);
        }
    }
    met
}

#[test]
fn by_the_profile_of_states() {
    by_walk(Profile::State).each_at_least(30);
}

/// The stored list with a call in each state tells each wrong model.
#[test]
fn by_a_call_in_every_state() {
    let bytes = text::encode(&vectors::every_state()).unwrap();
    let (mut table, mut station) = panel::start();
    let mut met = Met::none();
    for event in panel::records(&bytes).0 {
        met.add(&table, &station, &event);
        step(&mut table, &mut station, &event);
    }
    met.each_at_least(1);
}
