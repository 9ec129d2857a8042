//! The comparison: lists of events and single cases, and what is said of a
//! difference.

use crate::difference::{say_board, Difference};
use crate::engine::{Archive, Engine};
use crate::wire::{Answer, Board, Played, Stepped};
use model::codes::OPEN_DIVERTED;
use model::profile::{Profile, Walk};
use model::shrink::shrink;
use model::{text, Event, Record, Station};
use std::cell::RefCell;
use std::fmt::Write;

/// What the engine is compared with: `model::step`, or a wrong one, to see
/// that the comparison finds it.
pub type Reference = dyn Fn(&mut [Record], &mut Station, &Event) -> model::Answer;

/// Events that are sent to the engine at once.
const CHUNK: usize = 500;

/// The first seed of a test: `COMPARE_SEED`, or 0.
pub fn first_seed() -> u64 {
    match std::env::var("COMPARE_SEED") {
        Ok(word) => word.parse().expect("COMPARE_SEED is a number"),
        Err(_) => 0,
    }
}

/// How many events were compared, by the number of their answer.
#[derive(Clone, Copy, Debug, Default)]
pub struct Counts(pub [u64; 12]);

impl Counts {
    pub fn total(&self) -> u64 {
        self.0.iter().sum()
    }

    pub fn add(&mut self, other: Counts) {
        for (count, more) in self.0.iter_mut().zip(other.0) {
            *count += more;
        }
    }

    pub fn count(&mut self, answer: &Answer) {
        self.0[usize::from(answer.code)] += 1;
    }

    /// Every number was given more often than that, but 5, which "is no longer
    /// given" (02, Eight).
    pub fn each_over(&self, least: u64) -> bool {
        let mut numbers = self.0.iter().enumerate();
        numbers.all(|(number, &count)| match number {
            5 => count == 0,
            _ => count > least,
        })
    }
}

/// The engine beside the reference.
pub struct Comparison<'a> {
    engine: RefCell<Engine>,
    reference: &'a Reference,
}

impl Comparison<'_> {
    pub fn new(archive: Archive, reference: &Reference) -> Comparison<'_> {
        Comparison {
            engine: RefCell::new(Engine::start(archive)),
            reference,
        }
    }

    /// What the reference leaves of a list.
    fn expect(&self, start: &Board, events: &[Event]) -> Played {
        let (mut table, mut station) = (start.lent(), start.station);
        let step = |event: &Event| {
            let answer = (self.reference)(&mut table, &mut station, event);
            Stepped {
                answer: Answer::from(&answer),
                board: start.with(&table, station),
            }
        };
        Played::of(start, events.iter().map(step).collect())
    }

    /// Sends events to the engine and looks for a difference. The first one
    /// meets the start, or with none what the engine itself has left.
    fn meet(
        &self,
        start: Option<&Board>,
        events: &[Event],
        expected: &Played,
    ) -> Option<Difference> {
        let lists = std::iter::once((start, events));
        let found = self.engine.borrow_mut().play(lists);
        Difference::first(expected, &found[0])
    }

    /// The first difference over a list of events, each side going on from
    /// what it has left itself.
    fn over_list(&self, start: &Board, events: &[Event]) -> Option<Difference> {
        let mut board = start.clone();
        for (i, chunk) in events.chunks(CHUNK).enumerate() {
            let expected = self.expect(&board, chunk);
            let first = (i == 0).then_some(start);
            if let Some(difference) = self.meet(first, chunk, &expected) {
                return Some(difference.after(i * CHUNK));
            }
            board = expected.ran.board;
        }
        None
    }

    /// A list of events from a board.
    pub fn list(&self, name: &str, start: &Board, events: &[Event]) -> Result<(), String> {
        match self.over_list(start, events) {
            Some(_) => Err(self.report_list(name, start, events)),
            None => Ok(()),
        }
    }

    /// A walk of a profile from a board, as `over_list` while it is made.
    pub fn walk(
        &self,
        profile: Profile,
        seed: u64,
        start: &Board,
        count: usize,
    ) -> Result<Counts, String> {
        let mut walk = Walk::over(profile, seed, start.lent(), start.station);
        let mut played: Vec<Event> = Vec::new();
        let mut counts = Counts::default();
        while played.len() < count {
            let before = played.len();
            let mut steps = Vec::new();
            for _ in before..count.min(before + CHUNK) {
                let event = walk.propose();
                let answer = (self.reference)(&mut walk.table, &mut walk.station, &event);
                let answer = Answer::from(&answer);
                let board = start.with(&walk.table, walk.station);
                counts.count(&answer);
                played.push(event);
                steps.push(Stepped { answer, board });
            }
            let expected = Played::of(start, steps);
            let first = (before == 0).then_some(start);
            if let Some(difference) = self.meet(first, &played[before..], &expected) {
                let name = format!("{} of seed {seed}", profile.name());
                let cut = before + difference.at + 1;
                return Err(self.report_list(&name, start, &played[..cut]));
            }
        }
        Ok(counts)
    }

    /// Single events, each on a board of its own.
    pub fn cases(&self, cases: &[(Board, Event)]) -> Result<Counts, String> {
        let mut counts = Counts::default();
        let one = std::slice::from_ref::<Event>;
        for chunk in cases.chunks(CHUNK) {
            let lists = chunk.iter().map(|(board, event)| (Some(board), one(event)));
            let found = self.engine.borrow_mut().play(lists);
            for ((board, event), found) in chunk.iter().zip(found) {
                let expected = self.expect(board, one(event));
                if Difference::first(&expected, &found).is_some() {
                    return Err(self.report_case(board, event));
                }
                let answers = expected.steps.iter().map(|step| &step.answer);
                answers.for_each(|answer| counts.count(answer));
            }
        }
        Ok(counts)
    }

    /// A short list that still differs. An open that only moves the calls
    /// after it to a higher place goes too, and they move down.
    fn shortened(&self, start: &Board, events: &[Event]) -> Vec<Event> {
        let differs = |list: &[Event]| self.over_list(start, list).is_some();
        let mut short = shrink(events, differs);
        loop {
            let lower = (0..short.len())
                .filter(|&at| short[at].kind <= OPEN_DIVERTED)
                .map(|at| without_open(&short, at))
                .find(|list| differs(list));
            match lower {
                Some(list) => short = shrink(&list, differs),
                None => return short,
            }
        }
    }

    /// The list, shortened while it differs, in the text form.
    fn report_list(&self, name: &str, start: &Board, events: &[Event]) -> String {
        let short = self.shortened(start, events);
        let mut said = format!("{name} differs; {} events are enough:\n", short.len());
        if *start != Board::panel() {
            say_board(&mut said, start);
        }
        for event in &short {
            let _ = writeln!(said, "{}", text::write_event(event));
        }
        if let Some(difference) = self.over_list(start, &short) {
            difference.say(&mut said);
        }
        said
    }

    /// The case with as few records in use as still differ.
    fn report_case(&self, board: &Board, event: &Event) -> String {
        let with_only = |places: &[usize]| {
            let mut only = board.clone();
            for (at, call) in only.calls.iter_mut().enumerate() {
                if !places.contains(&at) {
                    *call = Record::default();
                }
            }
            only
        };
        let used: Vec<usize> = (0..board.calls.len()).collect();
        let few = shrink(&used, |places| {
            self.over_list(&with_only(places), &[*event]).is_some()
        });
        let board = with_only(&few);
        let mut said = "a case differs:\n".to_string();
        say_board(&mut said, &board);
        let _ = writeln!(said, "{}", text::write_event(event));
        if let Some(difference) = self.over_list(&board, &[*event]) {
            difference.say(&mut said);
        }
        said
    }
}

/// The list without the open at a place, taken as one that filled the record
/// of its number among the opens.
fn without_open(events: &[Event], at: usize) -> Vec<Event> {
    let opens = events[..at].iter().filter(|e| e.kind <= OPEN_DIVERTED);
    let call = opens.count() as u8;
    let mut list = events.to_vec();
    list.remove(at);
    for event in &mut list[at..] {
        if event.call > call {
            event.call -= 1;
        }
    }
    list
}
