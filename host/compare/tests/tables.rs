//! Hostile tables lent to the linked library: a million and more by the Rust
//! wrapper in this process, and a part by each archive's C server. Compared are
//! answer, station and every byte, also of the records around the lent ones;
//! `tables.rs` says how padding is taken.
#![forbid(unsafe_code)]

use compare::check::{first_seed, Counts};
use compare::memory::Reader;
use compare::tables::{report, Laid, Told};
use compare::wire::Answer;
use compare::{hostile, wrapped, Archive, Engine};
use model::codes::MOST_RECORDS;
use model::lent::Case;
use model::panel;
use model::profile::{self, Walk};
use model::random::Random;
use model::step;
use std::cell::RefCell;
use whipsail::{Call, Event};

/// Threads, rounds of each and cases of a round.
const THREADS: u64 = 2;
const ROUNDS: u64 = 180;
const CASES: usize = 4_000;
/// Base tables of which every edge of every field is tried.
const BASES: u64 = 60;
/// Rounds by a server.
const SERVED: u64 = 24;
/// Events of a list in place.
const LIST: usize = 40_000;

/// Lends each case by the wrapper.
fn by_wrapper(cases: impl Iterator<Item = Case>, seed: u64, counts: &mut Counts) {
    for case in cases {
        let laid = Laid::new(case);
        let told = wrapped::lend(&laid);
        if laid.fault(&told, &step).is_some() {
            panic!("seed {seed}: {}", report(&laid, &step, wrapped::lend));
        }
        counts.count(&told.answer);
    }
}

#[test]
fn a_million_tables() {
    let first = first_seed();
    let thread = |at: u64| {
        let mut counts = Counts::default();
        for seed in (first + at..)
            .step_by(THREADS as usize)
            .take(ROUNDS as usize)
        {
            let mut random = Random::new(seed);
            let cases = (0..CASES).map(|_| hostile::table(&mut random));
            by_wrapper(cases, seed, &mut counts);
        }
        counts
    };
    let mut counts = Counts::default();
    std::thread::scope(|scope| {
        let running: Vec<_> = (0..THREADS)
            .map(|at| scope.spawn(move || thread(at)))
            .collect();
        for thread in running {
            counts.add(thread.join().expect("no table differs"));
        }
    });
    println!("tables: {counts:?}");
    assert!(counts.total() >= 1_000_000);
    assert!(counts.each_over(1_000), "{counts:?}");
}

#[test]
fn every_edge_of_every_field() {
    let mut counts = Counts::default();
    let first = first_seed();
    for seed in first..first + BASES {
        let cases = hostile::at_every_edge(&mut Random::new(seed));
        by_wrapper(cases.into_iter(), seed, &mut counts);
    }
    println!("edges: {counts:?}");
    assert!(counts.total() >= 200_000);
}

/// Lengths that are refused; the low bits of some would be a table's.
#[test]
fn tables_that_are_too_long() {
    let lengths = [65, 66, 127, 128, 255, 256, 257, 300, 320, 321];
    let longer = [65_535, 65_536, 65_537, 65_540, 65_600, 65_601];
    let mut random = Random::new(first_seed());
    let cases: Vec<Laid> = (0..20)
        .flat_map(|round| match round {
            0 => [&lengths[..], &longer].concat(),
            _ => lengths.to_vec(),
        })
        .map(|length| Laid::new(hostile::long_table(&mut random, length)))
        .collect();
    let refused = |laid: &Laid, told: &Told| {
        let count = laid.table.len();
        assert_eq!(laid.fault(told, &step), None, "{count} records");
        assert_eq!(told.answer.code, 1);
    };
    for laid in &cases {
        refused(laid, &wrapped::lend(laid));
    }
    for &archive in Archive::all() {
        let told = Engine::start(archive).lend(&cases);
        for (laid, told) in cases.iter().zip(&told) {
            refused(laid, told);
        }
    }
}

/// Lists on one table that stays where it is, so that each event meets what the
/// engine itself has left, padding too.
#[test]
fn lists_in_place() {
    for profile in profile::ALL {
        let mut walk = Walk::new(profile, first_seed());
        let mut table = [Call::FREE; MOST_RECORDS];
        let mut station =
            whipsail::Station::fresh(panel::LIMIT, true, true).expect("a limit of 1 to 15");
        for at in 0..LIST {
            let (event, answer) = walk.advance();
            let told = station.step(&mut table, &Event::from_bytes(&event.encode()));
            let found = wrapped::answer(told);
            assert_eq!(found, Answer::from(&answer), "{profile:?}, event {at}");
            assert_eq!(wrapped::plain(&station), walk.station);
        }
        let records = table.map(|call| Reader(&call.to_bytes()).call());
        assert_eq!(records[..], walk.table, "{profile:?}");
    }
}

#[test]
fn by_the_server_of_each_archive() {
    let first = first_seed();
    for &archive in Archive::all() {
        let engine = RefCell::new(Engine::start(archive));
        let mut counts = Counts::default();
        for seed in first..first + archive.part(SERVED) {
            let mut random = Random::new(!seed);
            let cases: Vec<Laid> = (0..CASES)
                .map(|_| Laid::new(hostile::table(&mut random)))
                .collect();
            for chunk in cases.chunks(500) {
                let told = engine.borrow_mut().lend(chunk);
                for (laid, told) in chunk.iter().zip(told) {
                    counts.count(&told.answer);
                    if laid.fault(&told, &step).is_some() {
                        let lend = |laid: &Laid| {
                            let one = std::slice::from_ref(laid);
                            engine.borrow_mut().lend(one).remove(0)
                        };
                        panic!("{archive:?}, seed {seed}: {}", report(laid, &step, lend));
                    }
                }
            }
        }
        println!("{archive:?}: {counts:?}");
        assert!(counts.each_over(10), "{counts:?}");
    }
}
