//! Where events are 10 and where 11 (02, Eight), row by row, for counting and
//! for tests. `states` decides without it.

use crate::answer::Answer;
use crate::codes::*;
use crate::event::Event;
use crate::record::Record;
use std::collections::BTreeMap;

/// Events of one sort, and the basic states in which they may be 10 and 11;
/// 0 stands for kinds that name no call.
pub struct Row {
    pub name: &'static str,
    pub about: fn(&Event) -> bool,
    pub never_taken: &'static [u8],
    pub forbidden: &'static [u8],
}

const fn row(
    name: &'static str,
    about: fn(&Event) -> bool,
    never_taken: &'static [u8],
    forbidden: &'static [u8],
) -> Row {
    Row {
        name,
        about,
        never_taken,
        forbidden,
    }
}

/// Kind 14 of this message on this leg.
fn is(event: &Event, message: u8, leg: u8) -> bool {
    event.kind == MESSAGE && event.message == message && event.leg == leg
}

fn diverts(event: &Event, reasons: &[u8]) -> bool {
    event.kind == USER_DIVERTS && reasons.contains(&event.reason)
}

const P: u8 = PROCEEDING;
/// Delivered or Received.
const R: u8 = RECEIVED;
const A: u8 = ACTIVE;

/// The table of calls.
pub const ROWS: [Row; 20] = [
    row("4", |e| e.kind == USER_ALERTED, &[R, A], &[P]),
    row("5", |e| e.kind == USER_ANSWERS, &[A], &[P]),
    row("6 cfu, cfb", |e| diverts(e, &[CFU, CFB]), &[R, A], &[P]),
    row("6 cfnr", |e| diverts(e, &[CFNR]), &[P, A], &[R]),
    row("7", |e| e.kind == RESULT, &[A], &[P, R]),
    row("8", |e| e.kind == ERROR, &[A], &[P, R]),
    row("9", |e| e.kind == LEG_FAILED, &[P, A], &[R]),
    row("11", |e| e.kind == OWN_END, &[], &[]),
    row("12 on 1", |e| e.kind == REROUTE && e.leg == 1, &[], &[]),
    row(
        "12 on 2",
        |e| e.kind == REROUTE && e.leg == 2,
        &[P, A],
        &[R],
    ),
    row("13", |e| e.kind == DLI1, &[A], &[]),
    row("FACILITY on 1", |e| is(e, FACILITY, 1), &[A], &[P, R]),
    row("FACILITY on 2", |e| is(e, FACILITY, 2), &[P, R, A], &[]),
    row("ALERTING on 1", |e| is(e, ALERTING, 1), &[A], &[]),
    row("ALERTING on 2", |e| is(e, ALERTING, 2), &[P, A], &[R]),
    row("CONNECT on 1", |e| is(e, CONNECT, 1), &[A], &[]),
    row("CONNECT on 2", |e| is(e, CONNECT, 2), &[P, A], &[R]),
    row("RELEASE on 1", |e| is(e, RELEASE_COMPLETE, 1), &[], &[]),
    row(
        "RELEASE on 2",
        |e| is(e, RELEASE_COMPLETE, 2),
        &[P, A],
        &[R],
    ),
    row("15", |e| e.kind == FAR_END, &[], &[]),
];

/// "in Seven its case becomes 11": answers with none pending.
pub const REMOTE_ROWS: [Row; 8] = [
    row("24", |e| e.kind == ACTIVATION_RESULT, &[], &[0]),
    row("25", |e| e.kind == DEACTIVATION_RESULT, &[], &[0]),
    row("26", |e| e.kind == INTERROGATION_RESULT, &[], &[0]),
    row("27", |e| e.kind == CHECK_RESULT, &[], &[0]),
    row("28", |e| e.kind == ACTIVATION_ERROR, &[], &[0]),
    row("29", |e| e.kind == DEACTIVATION_ERROR, &[], &[0]),
    row("30", |e| e.kind == INTERROGATION_ERROR, &[], &[0]),
    row("31", |e| e.kind == CHECK_ERROR, &[], &[0]),
];

/// A row's name, a basic state and a number.
pub type Cell = (&'static str, u8, u8);

/// The cells of both tables in which an event is refused.
pub fn refused() -> Vec<Cell> {
    let cells = |row: &Row| {
        let (name, tens, elevens) = (row.name, row.never_taken, row.forbidden);
        let tens = tens.iter().map(move |&basic| (name, basic, 10));
        let elevens = elevens.iter().map(move |&basic| (name, basic, 11));
        tens.chain(elevens).collect::<Vec<Cell>>()
    };
    ROWS.iter().chain(&REMOTE_ROWS).flat_map(cells).collect()
}

/// How often an event of each cell was met; 0 is any number but 10 and 11.
#[derive(Clone, Debug, Default)]
pub struct Cells(pub BTreeMap<Cell, u32>);

impl Cells {
    /// Counts an event that names a call, or is 10 or 11; `table` is the one
    /// before it.
    pub fn add(&mut self, table: &[Record], event: &Event, answer: &Answer) {
        if matches!(answer.code, 1..=4) {
            return;
        }
        let number = match answer.code {
            10 | 11 => answer.code,
            _ => 0,
        };
        let mut rows = ROWS.iter().chain(&REMOTE_ROWS);
        if let Some(row) = rows.find(|row| (row.about)(event)) {
            let basic = match event.kind {
                ..=FAR_END => table[usize::from(event.call)].basic,
                _ => 0,
            };
            *self.0.entry((row.name, basic, number)).or_default() += 1;
        }
    }

    pub fn of(&self, cell: Cell) -> u32 {
        self.0.get(&cell).copied().unwrap_or_default()
    }

    /// The least met of the cells in which an event is refused.
    pub fn rarest(&self) -> (Cell, u32) {
        let counts = refused().into_iter().map(|cell| (cell, self.of(cell)));
        counts.min_by_key(|count| count.1).expect("some cell")
    }
}
