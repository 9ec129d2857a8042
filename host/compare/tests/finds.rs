//! The comparison can fail: against a wrong model it finds a difference, and
//! says it in a short list.
#![forbid(unsafe_code)]

use compare::check::{Comparison, Reference};
use compare::tables::{report, Laid};
use compare::{hostile, plans, wrapped, Archive, Board};
use model::codes::*;
use model::plan::{rehearse, Ending, Panel, Rehearsed};
use model::profile::Profile;
use model::random::Random;
use model::station_sound::station_sound;
use model::{step, Answer, Event, Record, Station};

/// The text of the events in a report.
fn events(said: &str) -> Vec<&str> {
    said.lines()
        .skip(1)
        .filter(|line| !line.starts_with('#'))
        .take_while(|line| !line.starts_with("at "))
        .collect()
}

/// Runs the profile until the difference is found; the report has at most
/// that many events.
fn found(profile: Profile, wrong: &Reference, most: usize) -> String {
    let said = Comparison::new(Archive::Native, wrong)
        .walk(profile, 1, &Board::panel(), 50_000)
        .expect_err("a wrong model is found");
    let count = events(&said).len();
    assert!((1..=most).contains(&count), "{said}");
    said
}

#[test]
fn a_lower_limit() {
    let said = found(
        Profile::Mixed,
        &|table: &mut [Record], station: &mut Station, event: &Event| {
            let limit = station.limit;
            station.limit = limit - 1;
            let answer = step(table, station, event);
            station.limit = limit;
            answer
        },
        2,
    );
    assert!(said.contains("counter 14"), "{said}");
    assert!(events(&said)[1].starts_with("divert call 0"), "{said}");
}

#[test]
fn a_later_clock() {
    let said = found(
        Profile::Clock,
        &|table: &mut [Record], station: &mut Station, event: &Event| {
            if event.kind != CLOCK || event.time <= station.last_time {
                return step(table, station, event);
            }
            let early = Event {
                time: event.time - 1,
                ..*event
            };
            let answer = step(table, station, &early);
            if answer.code == 0 {
                station.last_time = event.time;
            }
            answer
        },
        3,
    );
    assert!(events(&said)[2].starts_with("clock at"), "{said}");
}

#[test]
fn one_argument_of_one_message() {
    let wrong = |table: &mut [Record], station: &mut Station, event: &Event| {
        let mut answer: Answer = step(table, station, event);
        for message in &mut answer.messages {
            if message.letter == 'S' {
                message.diverting = message.destination;
            }
        }
        answer
    };
    let said = found(Profile::Deep, &wrong, 3);
    assert!(said.contains("reroute call 0"), "{said}");
}

#[test]
fn one_field_of_one_record() {
    let wrong = |table: &mut [Record], station: &mut Station, event: &Event| {
        let answer = step(table, station, event);
        if let (Some(at), USER_ANSWERS) = (answer.call, event.kind) {
            table[usize::from(at)].cdf = CDF_NONE;
        }
        answer
    };
    let said = found(Profile::Deep, &wrong, 2);
    assert!(said.contains("answer call 0"), "{said}");
}

/// One number in a call, as before document 02, Two.
#[test]
fn a_number_shown_once() {
    let wrong = |table: &mut [Record], station: &mut Station, event: &Event| {
        let shown: Vec<u8> = table.iter().map(|record| record.shown).collect();
        let answer = step(table, station, event);
        if let (Some(at), DLI1) = (answer.call, event.kind) {
            table[usize::from(at)].shown = shown[usize::from(at)];
        }
        answer
    };
    let said = found(Profile::Second, &wrong, 6);
    assert!(said.contains("cfnr"), "{said}");
}

/// Takes any T1 start.
fn any_start(table: &mut [Record], station: &mut Station, event: &Event) -> Answer {
    let last = station.last_time;
    if !station_sound(station) {
        return step(table, station, event);
    }
    station.last_time = u64::MAX;
    let sound = model::sound::lent_sound(table, station);
    station.last_time = last;
    if sound && event.time < last {
        return Answer::refused(2);
    }
    step(table, station, event)
}

#[test]
fn one_sentence_of_soundness() {
    let comparison = Comparison::new(Archive::Native, &any_start);
    let mut random = Random::new(3);
    let cases: Vec<_> = (0..50_000).map(|_| hostile::case(&mut random)).collect();
    let said = comparison.cases(&cases).expect_err("it is found");
    assert_eq!(events(&said).len(), 1, "{said}");
    let records = said.lines().filter(|line| line.contains("Record {"));
    assert_eq!(records.count(), 1, "{said}");
}

/// Takes the first 64 records of a table that is too long: none such can be lent
/// on a board, so that its run alone tells.
#[test]
fn a_board_that_is_too_long() {
    let wrong = |table: &mut [Record], station: &mut Station, event: &Event| {
        let len = table.len().min(MOST_RECORDS);
        step(&mut table[..len], station, event)
    };
    let comparison = Comparison::new(Archive::Native, &wrong);
    let clock = Event {
        kind: CLOCK,
        ..Event::default()
    };
    for len in hostile::TOO_LONG {
        let board = Board {
            len,
            ..Board::panel()
        };
        let said = comparison.cases(&[(board, clock)]);
        let said = said.expect_err("it is found");
        assert!(said.contains("at the end of a run, event 0"), "{said}");
    }
}

#[test]
fn one_sentence_of_soundness_of_a_lent_table() {
    let mut random = Random::new(4);
    let wrong = (0..50_000)
        .map(|_| Laid::new(hostile::table(&mut random)))
        .find(|laid| laid.fault(&wrapped::lend(laid), &any_start).is_some());
    let said = report(&wrong.expect("it is found"), &any_start, wrapped::lend);
    let records = said.lines().filter(|line| line.contains("Record {"));
    assert_eq!(records.count(), 1, "{said}");
}

#[test]
fn one_byte_around_a_lent_table() {
    let mut random = Random::new(5);
    let laid = Laid::new(hostile::table(&mut random));
    let told = wrapped::lend(&laid);
    assert_eq!(laid.fault(&told, &step), None);
    for at in [0, 1, told.after.len() - 2, told.after.len() - 1] {
        let mut touched = told.clone();
        touched.after[at][33] ^= 1;
        assert!(laid.fault(&touched, &step).is_some());
    }
}

/// Rehearses plans until the difference is found; the one that is said has at
/// most that many panels.
fn found_by_a_plan(wrong: &plans::Reference, most: usize) {
    let mut random = Random::new(6);
    let laid = (0..10_000)
        .map(|_| plans::Laid::new(model::plans::any(&mut random)))
        .find(|laid| laid.fault(&wrapped::rehearse(laid), wrong).is_some())
        .expect("a wrong model is found");
    let said = plans::report(&laid, wrong, wrapped::rehearse);
    let panels = said
        .lines()
        .skip(1)
        .take_while(|line| !line.starts_with("the model"));
    assert!((1..=most).contains(&panels.count()), "{said}");
}

/// A wrong model that takes each panel for another one.
fn taken_for(panels: &[Panel], start: u16, other: fn(Panel) -> Panel) -> Result<Rehearsed, u8> {
    let panels: Vec<Panel> = panels.iter().map(|&panel| other(panel)).collect();
    rehearse(&panels, start)
}

#[test]
fn a_busy_panel_without_cfb_that_goes_on_to_cfnr() {
    let other = |panel: Panel| Panel {
        busy: panel.busy * u16::from(panel.cfb != 0),
        ..panel
    };
    found_by_a_plan(&move |panels, start| taken_for(panels, start, other), 2);
}

#[test]
fn cfb_before_cfu() {
    let other = |panel: Panel| match panel.busy == 1 && panel.cfb != 0 {
        true => Panel { cfu: 0, ..panel },
        false => panel,
    };
    found_by_a_plan(&move |panels, start| taken_for(panels, start, other), 4);
}

#[test]
fn a_destination_outside_that_is_not_reached() {
    let wrong = |panels: &[Panel], start: u16| {
        let mut panels = panels.to_vec();
        let count = panels.len();
        for panel in panels.iter_mut().filter(|panel| panel.busy == 0) {
            panel.cfb *= u16::from(usize::from(panel.cfb) <= count);
        }
        rehearse(&panels, start)
    };
    found_by_a_plan(&wrong, 1);
}

#[test]
fn a_limit_of_forwards_one_early() {
    let early = Station::short().limit - 1;
    let wrong = move |panels: &[Panel], start: u16| {
        let done = rehearse(panels, start)?;
        Ok(match done.way.get(usize::from(early)) {
            None => done,
            Some(&(last, _)) => Rehearsed {
                last,
                ending: Ending::Limit,
                counter: early,
                way: done.way[..usize::from(early)].to_vec(),
            },
        })
    };
    found_by_a_plan(&wrong, usize::from(early) + 2);
}

#[test]
fn one_number_in_or_around_a_plan() {
    let laid = plans::Laid::new(model::plans::of(
        model::plans::Sort::Full,
        &mut Random::new(7),
    ));
    let told = wrapped::rehearse(&laid);
    assert_eq!(laid.fault(&told, &rehearse), None);
    for at in [0, 3, 600, told.after.len() - 4, told.after.len() - 1] {
        let mut touched = told.clone();
        touched.after[at] ^= 0x0100;
        assert!(laid.fault(&touched, &rehearse).is_some());
    }
}
