//! Counts what the generators meet: answers by kind, the shapes of done
//! answers, identifiers passed over, what happens to calls in Invoked by how
//! many wait, where events are 10 and 11, and the sentences that damage
//! breaks.
#![forbid(unsafe_code)]

use model::{cells, codes, lent, profile, random::Random, sound, station_sound, step, ways};
use model::{Answer, Event, Record, Station};
use std::collections::BTreeMap;

const EVENTS: usize = 20_000;
const CASES: usize = 100_000;
const LENT_WALKS: u64 = 400;
const LENT_EVENTS: usize = 100;

/// Counts by answer number (rows) and kind (columns; the first is any other).
#[derive(Default)]
struct Counts {
    codes: [[u32; 32]; 12],
    shapes: BTreeMap<String, u32>,
    passed_over: u32,
    ways: ways::Ways,
    cells: cells::Cells,
}

impl Counts {
    fn add(&mut self, next: u16, event: &Event, answer: &Answer) {
        let kind = usize::from(event.kind) * usize::from(event.kind < 32);
        self.codes[usize::from(answer.code)][kind] += 1;
        if answer.code != 0 {
            return;
        }
        let draws = matches!(event.kind, codes::USER_DIVERTS | 16..=19);
        if draws && answer.identifier != Some(next) {
            self.passed_over += 1;
        }
        let line = answer.to_string();
        let messages = line.rsplit(' ').next().unwrap_or("-");
        let notice = answer.notice.map_or("no-notice", |_| "notice");
        let number = answer.number.map_or("no-number", |_| "number");
        let shape = format!("{:>2} {notice} {number} {messages}", event.kind);
        *self.shapes.entry(shape).or_default() += 1;
    }

    /// Runs the walk that many events.
    fn follow(&mut self, mut walk: profile::Walk, events: usize) {
        for _ in 0..events {
            let next = walk.station.next_identifier;
            let before = walk.table.clone();
            let (event, answer) = walk.advance();
            self.ways.add(&before, &event, &answer);
            self.cells.add(&before, &event, &answer);
            self.add(next, &event, &answer);
        }
    }

    fn print(&self, name: &str) {
        println!("{name}: answer by any other kind and 1 to 31");
        for (code, row) in self.codes.iter().enumerate() {
            let cells: String = row.iter().map(|count| format!("{count:>6}")).collect();
            println!("  {code:>2} {cells}");
        }
        println!("  open identifiers passed over: {}", self.passed_over);
        println!("  in Invoked, with 1, 2 to 14 and 15 waiting");
        for name in ways::OUT.iter().chain(&ways::WITHIN) {
            let cells = self.ways.of(name).map(|count| format!("{count:>7}"));
            println!("  {} {name}", cells.concat());
        }
        println!("  10 and 11 by sort of event and basic state");
        for cell in cells::refused() {
            let (name, basic, code) = cell;
            println!("  {:>7} {code} {name} in {basic}", self.cells.of(cell));
        }
        for (shape, count) in &self.shapes {
            println!("  {count:>7} {shape}");
        }
    }
}

/// The sentences that do not hold; a lone one is the telling case.
fn broken(table: &[Record], station: &Station) -> Vec<&'static str> {
    let mut names: Vec<&str> = sound::RECORD_SENTENCES
        .iter()
        .filter(|(_, holds)| !table.iter().all(holds))
        .map(|(name, _)| *name)
        .collect();
    let others = [
        ("length_in_range", sound::length_in_range(table)),
        (
            "no_start_after_last_time",
            sound::no_start_after_last_time(table, station.last_time),
        ),
        (
            "no_shared_identifier",
            station_sound::no_shared_identifier(table, station),
        ),
    ];
    let of_station = station_sound::STATION_SENTENCES.iter();
    names.extend(of_station.filter(|(_, holds)| !holds(station)).map(|s| s.0));
    names.extend(others.iter().filter(|other| !other.1).map(|other| other.0));
    names
}

fn cases() {
    let mut counts = Counts::default();
    let mut alone: BTreeMap<&str, u32> = BTreeMap::new();
    let mut random = Random::new(1);
    for _ in 0..CASES {
        let mut case = lent::case(&mut random);
        if let [name] = broken(&case.table, &case.station)[..] {
            *alone.entry(name).or_default() += 1;
        }
        let next = case.station.next_identifier;
        let before = case.table.clone();
        let answer = step(&mut case.table, &mut case.station, &case.event);
        counts.add(next, &case.event, &answer);
        counts.ways.add(&before, &case.event, &answer);
        counts.cells.add(&before, &case.event, &answer);
    }
    counts.print("lent cases");
    println!("sentences broken alone");
    for (name, count) in alone {
        println!("  {count:>7} {name}");
    }
}

fn main() {
    for profile in profile::ALL {
        let mut counts = Counts::default();
        counts.follow(profile::Walk::new(profile, 1), EVENTS);
        counts.print(profile.name());
        let mut counts = Counts::default();
        for seed in 0..LENT_WALKS {
            let (table, station) = lent::sound_start(&mut Random::new(seed));
            let walk = profile::Walk::over(profile, seed, table, station);
            counts.follow(walk, LENT_EVENTS);
        }
        counts.print(&format!("{} over lent starts", profile.name()));
    }
    cases();
}
