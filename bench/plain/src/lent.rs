//! What a host calls: one event with the table's test, and many with one test.

use crate::answer::Answer;
use crate::call::Call;
use crate::event::{Event, Words, SIZE};
use crate::sound::sound;
use crate::station::Station;

/// One event on a table that is not trusted.
pub fn step(table: &mut [Call], station: &mut Station, event: &Event) -> Answer {
    match sound(table, station) {
        true => station.step(table, event, event.words()),
        false => Answer::refused(1),
    }
}

/// All whole records, after one test; hands back how many were done.
pub fn run(table: &mut [Call], station: &mut Station, bytes: &[u8]) -> usize {
    let (records, _) = bytes.as_chunks::<SIZE>();
    if !sound(table, station) {
        return 0;
    }
    let mut done = 0;
    for record in records {
        let answer = station.step(table, &Event::decode(record), Words::of(record));
        done += usize::from(answer.code == 0);
    }
    done
}
