//! Where two outcomes differ, and how that is said.

use crate::wire::{Board, Played};
use model::Record;
use std::fmt::Write;

/// The first difference of two outcomes of a list.
pub struct Difference {
    /// Of a run, its last event.
    pub at: usize,
    in_run: bool,
    parts: String,
}

impl Difference {
    /// The first event that differs on lent records, else the run.
    pub fn first(expected: &Played, found: &Played) -> Option<Difference> {
        assert_eq!(expected.steps.len(), found.steps.len());
        let steps = expected.steps.iter().zip(&found.steps);
        if let Some((at, (expected, found))) = steps.enumerate().find(|(_, (e, f))| e != f) {
            let mut parts = String::new();
            if expected.answer != found.answer {
                let _ = writeln!(parts, "{:?}\n{:?}", expected.answer, found.answer);
            }
            say_boards(&mut parts, &expected.board, &found.board);
            return Some(Difference {
                at,
                in_run: false,
                parts,
            });
        }
        let (expected, found) = (&expected.ran, &found.ran);
        let count = (expected.done + expected.refused) as usize;
        (expected != found).then(|| {
            let mut parts = String::new();
            for ran in [expected, found] {
                let _ = writeln!(parts, "{} {} {}", ran.done, ran.refused, ran.cut);
            }
            say_boards(&mut parts, &expected.board, &found.board);
            Difference {
                at: count.saturating_sub(1),
                in_run: true,
                parts,
            }
        })
    }

    /// The same in a list of which so many events came before.
    pub fn after(self, before: usize) -> Difference {
        let at = before + self.at;
        Difference { at, ..self }
    }

    /// The parts of the two outcomes that differ.
    pub fn say(&self, said: &mut String) {
        let place = match self.in_run {
            true => "at the end of a run, event",
            false => "at event",
        };
        let _ = writeln!(said, "{place} {}, the model then the engine:", self.at);
        said.push_str(&self.parts);
    }
}

fn say_boards(said: &mut String, expected: &Board, found: &Board) {
    if (expected.station, expected.len) != (found.station, found.len) {
        let _ = writeln!(said, "{:?} {}", expected.station, expected.len);
        let _ = writeln!(said, "{:?} {}", found.station, found.len);
    }
    for (at, pair) in expected.calls.iter().zip(&found.calls).enumerate() {
        if pair.0 != pair.1 {
            let _ = writeln!(said, "{at}: {:?}\n{at}: {:?}", pair.0, pair.1);
        }
    }
}

/// A board that a list starts from.
pub fn say_board(said: &mut String, board: &Board) {
    let _ = writeln!(said, "# {:?}, {} records lent", board.station, board.len);
    for (at, call) in board.calls.iter().enumerate() {
        if *call != Record::default() {
            let _ = writeln!(said, "# {at}: {call:?}");
        }
    }
}
