//! Single events on boards, sound or not, with any station: each on the board's
//! records in place, where it has so many, and as a run of one event by value.
#![forbid(unsafe_code)]

use compare::check::{first_seed, Comparison, Counts};
use compare::{hostile, Archive, Board};
use model::random::Random;
use model::{lent, step, Event};

const ROUNDS: u64 = 20;
const CASES: usize = 4_000;

fn run(name: &str, case: impl Fn(&mut Random) -> (Board, Event)) {
    let first = first_seed();
    for &archive in Archive::all() {
        let comparison = Comparison::new(archive, &step);
        let mut counts = Counts::default();
        for seed in first..first + archive.part(ROUNDS) {
            let mut random = Random::new(seed);
            let cases: Vec<_> = (0..CASES).map(|_| case(&mut random)).collect();
            match comparison.cases(&cases) {
                Ok(more) => counts.add(more),
                Err(said) => panic!("{archive:?}, seed {seed}: {said}"),
            }
        }
        println!("{name}, {archive:?}: {counts:?}");
        assert!(counts.each_over(10), "{counts:?}");
    }
}

#[test]
fn sound_or_damaged() {
    run("lent", |random| {
        let case = lent::case(random);
        let rest = hostile::any_rest(random);
        (Board::of(&case.table, case.station, rest), case.event)
    });
}

#[test]
fn any_value_in_every_field() {
    run("any", hostile::case);
}
