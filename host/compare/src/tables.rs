//! Lent tables: every byte that an event leaves, in the table and around it.
//!
//! Padding is no field: of the record that a done event names it may come out
//! as anything, and elsewhere it must stay as every other byte.

use crate::check::Reference;
use crate::memory::{self, Reader, CALL};
use crate::wire::Answer;
use model::lent::Case;
use model::shrink::shrink;
use model::{text, Event, Record, Station};
use std::fmt::Write;
use std::ops::Range;

/// A record as it lies in memory.
pub type Bytes = [u8; CALL];

/// Records before and behind a lent table, which nobody may touch.
const GUARDS: usize = 2;
/// What stands in them.
const GUARD: Bytes = [0xA5; CALL];

/// A case whose table lies in memory between guards.
#[derive(Clone, Debug)]
pub struct Laid {
    pub table: Vec<Record>,
    pub station: Station,
    pub event: Event,
    pub before: Vec<Bytes>,
}

/// What the library leaves of it.
#[derive(Clone, Debug, PartialEq, Eq)]
pub struct Told {
    pub answer: Answer,
    pub station: Station,
    pub after: Vec<Bytes>,
}

impl Laid {
    pub fn new(case: Case) -> Laid {
        let mut bytes = Vec::with_capacity(case.table.len() * CALL);
        for record in &case.table {
            memory::put_call(&mut bytes, record);
        }
        let (records, _) = bytes.as_chunks();
        let before = [&[GUARD; GUARDS], records, &[GUARD; GUARDS]].concat();
        Laid {
            table: case.table,
            station: case.station,
            event: case.event,
            before,
        }
    }

    /// The places that are lent.
    pub fn lent(&self) -> Range<usize> {
        GUARDS..self.before.len() - GUARDS
    }

    /// What is wrong with what the library has left.
    pub fn fault(&self, told: &Told, reference: &Reference) -> Option<String> {
        let mut table = self.table.clone();
        let mut station = self.station;
        let answer = Answer::from(&reference(&mut table, &mut station, &self.event));
        if told.answer != answer {
            return Some(format!("answers\n{answer:?}\n{:?}", told.answer));
        }
        if told.station != station {
            return Some(format!("stations\n{station:?}\n{:?}", told.station));
        }
        let named = (answer.call != 255).then_some(GUARDS + usize::from(answer.call));
        let same = |at: usize| match named == Some(at) {
            true => Reader(&told.after[at]).call() == table[at - GUARDS],
            false => told.after[at] == self.before[at],
        };
        let places = 0..self.before.len();
        let at = places.clone().find(|&at| !same(at))?;
        Some(format!("bytes of record {at} among {places:?}"))
    }
}

/// The case with as few records in use as still have a fault, in words.
pub fn report(laid: &Laid, reference: &Reference, lend: impl Fn(&Laid) -> Told) -> String {
    let with_only = |places: &[usize]| {
        let keep = |at: usize| match places.contains(&at) {
            true => laid.table[at],
            false => Record::default(),
        };
        Laid::new(Case {
            table: (0..laid.table.len()).map(keep).collect(),
            station: laid.station,
            event: laid.event,
        })
    };
    let fault = |laid: &Laid| laid.fault(&lend(laid), reference);
    let places: Vec<usize> = (0..laid.table.len()).collect();
    let few = shrink(&places, |places| fault(&with_only(places)).is_some());
    let least = with_only(&few);
    let mut said = format!("{} records, {:?}\n", least.table.len(), least.station);
    for (at, record) in least.table.iter().enumerate() {
        if *record != Record::default() {
            let _ = writeln!(said, "{at}: {record:?}");
        }
    }
    let _ = writeln!(said, "{}", text::write_event(&least.event));
    said + &fault(&least).unwrap_or_default()
}
