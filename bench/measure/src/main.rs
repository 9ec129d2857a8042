//! `measure time [ROUNDS]` times each event of both engines, and `measure count
//! ENTRY ENGINE TABLE` plays one of them once, for a program that counts
//! instructions. `bench/lent` puts both side by side.

mod agree;
mod convert;
mod library;
mod workload;

use plain::answer::Answer;
use plain::call::Call;
use plain::event::Event;
use plain::station::Station;
use std::hint::black_box;
use std::time::Instant;
use workload::Workload;

/// Events of a table, to time and to count.
const TIMED: usize = 4_000;
const COUNTED: usize = 2_000;

type Step = fn(&mut [Call], &mut Station, &Event) -> Answer;
type Run = fn(&mut [Call], &mut Station, &[u8]) -> usize;

/// What is measured: an entry of one of the two engines.
#[derive(Clone, Copy)]
enum Entry {
    Step(Step),
    Run(Run),
}

/// The entries by name, the library's first; `handed` has the plain engine behind
/// the library's interface.
const ENTRIES: [(&str, [Entry; 2]); 3] = [
    (
        "step",
        [Entry::Step(library::step), Entry::Step(plain::lent::step)],
    ),
    (
        "handed",
        [Entry::Step(library::step), Entry::Step(library::plain_step)],
    ),
    (
        "run",
        [Entry::Run(library::run), Entry::Run(plain::lent::run)],
    ),
];

/// Plays all events of a workload; `--toggle-collect` finds it by this name.
#[no_mangle]
#[inline(never)]
fn measured(entry: Entry, table: &mut [Call], station: &mut Station, work: &Workload) -> usize {
    match entry {
        Entry::Step(step) => {
            let done = |event: &&Event| step(table, station, event).code == 0;
            work.events.iter().filter(done).count()
        }
        Entry::Run(run) => run(table, station, &work.bytes),
    }
}

/// Nanoseconds for each event.
fn time(entry: Entry, work: &Workload) -> f64 {
    let (mut table, mut station) = (work.table.clone(), work.station);
    let began = Instant::now();
    black_box(measured(black_box(entry), &mut table, &mut station, work));
    began.elapsed().as_nanos() as f64 / work.events.len() as f64
}

/// The best time of each engine on each table, all in turn.
fn best(entries: [Entry; 2], works: &[Workload; 4], rounds: usize) -> [[f64; 2]; 4] {
    let mut least = [[f64::INFINITY; 2]; 4];
    for _ in 0..rounds {
        for (least, work) in least.iter_mut().zip(works) {
            for (least, entry) in least.iter_mut().zip(entries) {
                *least = least.min(time(entry, work));
            }
        }
    }
    least
}

/// A line for each entry and table: entry, table's number, library, plain, name.
fn print_times(rounds: usize) {
    let works = workload::all(TIMED);
    agree::check(&works);
    for (entry, engines) in ENTRIES {
        let times = best(engines, &works, rounds);
        for (table, (work, [ours, theirs])) in works.iter().zip(times).enumerate() {
            println!("{entry} {table} {ours:.2} {theirs:.2} {}", work.name);
        }
    }
}

/// Plays one of them, and prints how many events that were.
fn count(words: &[String]) -> Option<()> {
    let [entry, engine, table] = words else {
        return None;
    };
    let (_, engines) = ENTRIES.into_iter().find(|(name, _)| name == entry)?;
    let which = ["library", "plain"]
        .iter()
        .position(|name| name == engine)?;
    let works = workload::all(COUNTED);
    let work = works.get(table.parse::<usize>().ok()?)?;
    let (mut table, mut station) = (work.table.clone(), work.station);
    black_box(measured(engines[which], &mut table, &mut station, work));
    println!("{}", work.events.len());
    Some(())
}

fn main() {
    let words: Vec<String> = std::env::args().skip(1).collect();
    match words.first().map(String::as_str) {
        Some("count") if count(&words[1..]).is_some() => {}
        Some("time") => {
            let rounds = words.get(1).and_then(|word| word.parse().ok());
            print_times(rounds.unwrap_or(100));
        }
        _ => {
            eprintln!("usage: measure time [ROUNDS] | count step|handed|run library|plain 0..3");
            std::process::exit(1);
        }
    }
}
