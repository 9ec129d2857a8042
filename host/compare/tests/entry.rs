//! The other functions of the library, by each archive.
#![forbid(unsafe_code)]

use compare::wire::Ran;
use compare::{hostile, Archive, Board, Engine};
use model::random::Random;
use model::{guided, panel, profile, step, Event, Station};

/// Runs a test on each archive's server.
fn each(test: impl Fn(&mut Engine)) {
    for &archive in Archive::all() {
        println!("{archive:?}");
        test(&mut Engine::start(archive));
    }
}

#[test]
fn fresh_stations_of_every_limit_and_mark() {
    each(|engine| {
        let marks = [(0, 0), (0, 1), (1, 0), (1, 1), (1, 2), (255, 0)];
        let limits = (0..=255).flat_map(|limit| marks.map(|(e, a)| (limit, e, a)));
        let every_mark = (0..=255).flat_map(|mark| [(15, mark, 1), (1, 0, mark), (0, mark, mark)]);
        for (limit, enabled, allowed) in limits.chain(every_mark) {
            let expected = match Station::fresh(limit, enabled, allowed) {
                Ok(station) => (0, station),
                Err(code) => (code, Station::default()),
            };
            let found = engine.fresh(limit, enabled, allowed);
            assert_eq!(found, expected, "limit {limit}, marks {enabled} {allowed}");
        }
        assert_eq!(engine.fresh_short(), Station::short());
    });
}

#[test]
fn events_well_made_or_not() {
    each(|engine| {
        let mut random = Random::new(1);
        let mut counts = [0; 2];
        for profile in profile::ALL {
            let mut events = profile::events(profile, 1, 10_000);
            let bent: Vec<Event> = events
                .iter()
                .map(|event| guided::bent(&mut random, *event))
                .collect();
            events.extend(bent);
            events.extend((0..5_000).map(|_| guided::wild(&mut random)));
            let found = engine.well_made(&events);
            for (event, found) in events.iter().zip(found) {
                assert_eq!(found, u8::from(event.well_made()), "{event:?}");
                counts[usize::from(found)] += 1;
            }
        }
        assert!(counts.iter().all(|&count| count > 25_000), "{counts:?}");
    });
}

#[test]
fn events_at_every_place() {
    each(|engine| {
        let mut random = Random::new(2);
        for length in 0..75_u64 {
            let bytes: Vec<u8> = (0..length).map(|_| random.draw() as u8).collect();
            let far = [u64::MAX - 24, u64::MAX - 23, u64::MAX];
            for place in (0..length + 26).chain(far) {
                let record = usize::try_from(place)
                    .ok()
                    .and_then(|place| bytes.get(place..)?.first_chunk());
                let expected = match record {
                    Some(record) => (1, Event::decode(record)),
                    None => (0, Event::default()),
                };
                let found = engine.event_at(&bytes, place);
                assert_eq!(found, expected, "{length} bytes, place {place}");
            }
        }
    });
}

/// What the model leaves of a run.
fn expected_run(board: &Board, bytes: &[u8]) -> Ran {
    let (mut table, mut station) = (board.lent(), board.station);
    let (events, rest) = panel::records(bytes);
    let codes = events
        .iter()
        .map(|event| step(&mut table, &mut station, event).code);
    let done = codes.filter(|&code| code == 0).count() as u64;
    Ran {
        done,
        refused: events.len() as u64 - done,
        cut: rest.len() as u64,
        board: board.with(&table, station),
    }
}

#[test]
fn runs_of_every_profile() {
    each(|engine| {
        for profile in profile::ALL {
            for seed in 0..40 {
                let mut random = Random::new(seed);
                let events = profile::events(profile, seed, random.below(300) as usize);
                let mut bytes = panel::bytes(&events);
                bytes.extend(vec![1; random.below(24) as usize]);
                let hostile = random.chance(20);
                let board = match hostile {
                    true => hostile::case(&mut random).0,
                    false => Board::panel(),
                };
                let found = engine.run(&board, &bytes);
                assert_eq!(found, expected_run(&board, &bytes), "seed {seed}");
            }
        }
    });
}
