//! Forwards set from another panel: each wrong model of kinds 16 to 31 is found, by
//! lists over lent starts or by hostile tables; and 68 requests open at once.
#![forbid(unsafe_code)]

use compare::check::{Comparison, Reference};
use compare::tables::{report, Laid};
use compare::{hostile, wrapped, Archive, Board};
use model::profile::Profile;
use model::random::Random;
use model::wrong::{Step, REMOTE};
use model::{lent, panel, step, text, vectors, wrong_sound, Event, Record, Station};

/// Lists over lent starts, and their length.
const LISTS: u64 = 300;
const LENGTH: usize = 100;
/// The longest list that may be said of a wrong model.
const MOST: usize = 12;

/// What is said of the first list that differs.
fn found(wrong: Step) -> Option<String> {
    let reference: &Reference =
        &move |table: &mut [Record], station: &mut Station, event: &Event| {
            wrong(table, station, event)
        };
    let comparison = Comparison::new(Archive::Native, reference);
    (0..LISTS).find_map(|seed| {
        let mut random = Random::new(seed);
        let (table, station) = lent::sound_start(&mut random);
        let start = Board::of(&table, station, hostile::any_rest(&mut random));
        let walk = comparison.walk(Profile::Remote, seed, &start, LENGTH);
        walk.err()
    })
}

#[test]
fn wrong_rules() {
    for (name, wrong) in REMOTE {
        let said = found(wrong).unwrap_or_else(|| panic!("{name} is not found"));
        let enough = |count| said.contains(&format!("; {count} events are enough"));
        assert!((1..=MOST).any(enough), "{name}: {said}");
    }
}

#[test]
fn wrong_soundness() {
    for (name, wrong) in wrong_sound::REMOTE {
        let mut random = Random::new(9);
        let differs = (0..50_000)
            .map(|_| Laid::new(hostile::table(&mut random)))
            .find(|laid| laid.fault(&wrapped::lend(laid), &wrong).is_some());
        let laid = differs.unwrap_or_else(|| panic!("{name} is not found"));
        let said = report(&laid, &wrong, wrapped::lend);
        let records = said.lines().filter(|line| line.contains("Record {"));
        assert!(records.count() <= 1, "{name}: {said}");
    }
}

#[test]
fn sixty_eight_open_at_once() {
    let bytes = text::encode(&vectors::sixty_eight()).expect("events");
    let events = panel::records(&bytes).0;
    for &archive in Archive::all() {
        let comparison = Comparison::new(archive, &step);
        let same = comparison.list("sixty-eight", &Board::panel(), &events);
        same.unwrap_or_else(|said| panic!("{archive:?}: {said}"));
    }
}
