//! Every profile of the model, from the panel's start and over lent starts: event
//! by event on a board's records in place, and in runs on the board by value.
#![forbid(unsafe_code)]

use compare::check::{first_seed, Comparison, Counts};
use compare::{hostile, Archive, Board};
use model::profile::{self, Profile};
use model::random::Random;
use model::{lent, step};

/// Lists of each profile from the panel's start, and their length; the last
/// one is longer.
const LISTS: u64 = 10;
const LENGTH: usize = 5_000;
const LONG: usize = 20_000;
/// Lists over lent starts of each profile, and their length.
const LENT_LISTS: u64 = 100;
const LENT_LENGTH: usize = 100;

fn run(profile: Profile) {
    for &archive in Archive::all() {
        let comparison = Comparison::new(archive, &step);
        let counts = played(&comparison, profile, archive);
        println!("{}, {archive:?}: {counts:?}", profile.name());
        assert!(counts.0[0] > 0);
    }
}

fn played(comparison: &Comparison, profile: Profile, archive: Archive) -> Counts {
    let mut counts = Counts::default();
    let mut follow = |seed: u64, start: &Board, length: usize| match comparison
        .walk(profile, seed, start, length)
    {
        Ok(more) => counts.add(more),
        Err(said) => panic!("{archive:?}: {said}"),
    };
    let first = first_seed();
    for seed in first..first + archive.part(LISTS) {
        follow(seed, &Board::panel(), LENGTH);
    }
    if archive == Archive::Native {
        follow(first + LISTS, &Board::panel(), LONG);
    }
    for seed in first..first + archive.part(LENT_LISTS) {
        let mut random = Random::new(seed);
        let (table, station) = lent::sound_start(&mut random);
        let start = Board::of(&table, station, hostile::any_rest(&mut random));
        follow(seed, &start, LENT_LENGTH);
    }
    counts
}

#[test]
fn mixed() {
    run(Profile::Mixed);
}

#[test]
fn deep() {
    run(Profile::Deep);
}

#[test]
fn full() {
    run(Profile::Full);
}

#[test]
fn clock() {
    run(Profile::Clock);
}

#[test]
fn wrap() {
    run(Profile::Wrap);
}

#[test]
fn hostile() {
    run(Profile::Hostile);
}

#[test]
fn second() {
    run(Profile::Second);
}

#[test]
fn chain() {
    run(Profile::Chain);
}

#[test]
fn remote() {
    run(Profile::Remote);
}

#[test]
fn state() {
    run(Profile::State);
}

#[test]
fn these_are_all_profiles() {
    assert_eq!(profile::ALL.len(), 10);
}
