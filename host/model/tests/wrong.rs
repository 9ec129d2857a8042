//! Each wrong model of document 02, Seven, differs from the right one on what
//! the generators make.
#![forbid(unsafe_code)]

use model::profile::{Profile, Walk};
use model::random::Random;
use model::wrong::{Step, REMOTE};
use model::{lent, step, wrong_sound, Event, Record, Station};

/// Whether the model leaves anything else of the event.
fn differs(table: &[Record], station: &Station, event: &Event, wrong: Step) -> bool {
    let taken = |step: Step| {
        let (mut table, mut station) = (table.to_vec(), *station);
        let answer = step(&mut table, &mut station, event);
        (answer, table, station)
    };
    taken(step) != taken(wrong)
}

/// How many of so many lent cases differ.
fn by_cases(wrong: Step, seed: u64, cases: usize) -> usize {
    let mut random = Random::new(seed);
    let case = |_| lent::case(&mut random);
    let cases = (0..cases).map(case);
    let differing = cases.filter(|c| differs(&c.table, &c.station, &c.event, wrong));
    differing.count()
}

/// How many events of that many walks over lent starts differ.
fn by_walks(wrong: Step, walks: u64) -> usize {
    let mut met = 0;
    for seed in 0..walks {
        let (table, station) = lent::sound_start(&mut Random::new(seed));
        let mut walk = Walk::over(Profile::Remote, seed, table, station);
        for _ in 0..100 {
            let event = walk.propose();
            met += usize::from(differs(&walk.table, &walk.station, &event, wrong));
            step(&mut walk.table, &mut walk.station, &event);
        }
    }
    met
}

#[test]
fn wrong_rules_are_met_by_lent_cases_and_by_the_profile() {
    for (name, wrong) in REMOTE {
        let met = (by_cases(wrong, 1, 40_000), by_walks(wrong, 300));
        println!("{met:?} {name}");
        assert!(met.0 >= 4 && met.1 >= 4, "{name}: {met:?}");
    }
}

#[test]
fn wrong_soundness_is_met_by_lent_cases() {
    for (name, wrong) in wrong_sound::REMOTE {
        let met = by_cases(wrong, 2, 40_000);
        println!("{met} {name}");
        assert!(met >= 20, "{name}: {met}");
    }
}

/// Rules that need no other marks are met from the panel's start too.
#[test]
fn the_panel_meets_most() {
    for (name, wrong) in REMOTE {
        let mut walk = Walk::new(Profile::Remote, 1);
        let mut met = 0;
        for _ in 0..20_000 {
            let event = walk.propose();
            met += usize::from(differs(&walk.table, &walk.station, &event, wrong));
            step(&mut walk.table, &mut walk.station, &event);
        }
        let never = [
            "a request with the identifier of a call's",
            "a divert with a pending identifier",
            "stored when not enabled",
            "a check answered by the enabled mark",
            "a deactivation that reads the mark",
        ];
        assert_eq!(met == 0, never.contains(&name), "{name}: {met}");
    }
}
