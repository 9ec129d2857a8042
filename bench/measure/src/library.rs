//! The library's entries over the plain engine's structs, which lie in
//! memory as those of `whipsail.h`, and the plain engine behind the first of them.

use plain::answer::Answer;
use plain::call::Call;
use plain::event::Event;
use plain::station::Station;
use std::hint::black_box;
use whipsail as _; // links the archive

#[repr(C)]
struct Input {
    station: Station,
    event: Event,
}

#[repr(C)]
struct Told {
    answer: Answer,
    station: Station,
}

#[derive(Clone, Copy)]
#[repr(C)]
struct Board {
    station: Station,
    len: usize,
    calls: [Call; 64],
}

#[repr(C)]
struct Ran {
    done: u64,
    refused: u64,
    cut: usize,
    board: Board,
}

const _: () = assert!(size_of::<Input>() == 112 && size_of::<Told>() == 152);
const _: () = assert!(size_of::<Board>() == 6240 && size_of::<Ran>() == 6264);
const _: () = assert!(size_of::<Call>() == size_of::<whipsail::Call>());
const _: () = assert!(size_of::<Station>() == size_of::<whipsail::Station>());

type LentStep = unsafe extern "C" fn(*mut Call, usize, Input) -> Told;

extern "C" {
    fn whipsail_lent_step(table: *mut Call, len: usize, input: Input) -> Told;
    fn whipsail_run(board: Board, bytes: *const u8, len: usize) -> Ran;
}

/// One event by an entry that takes and gives all by value but the table.
#[inline(always)]
fn handed(entry: LentStep, table: &mut [Call], station: &mut Station, event: &Event) -> Answer {
    let input = Input {
        station: *station,
        event: *event,
    };
    // SAFETY: the slice's own pointer and length; all values are taken.
    let told = unsafe { entry(table.as_mut_ptr(), table.len(), input) };
    *station = told.station;
    told.answer
}

/// One event, with the table's test.
pub fn step(table: &mut [Call], station: &mut Station, event: &Event) -> Answer {
    handed(whipsail_lent_step, table, station, event)
}

/// The plain engine behind the library's interface.
unsafe extern "C" fn plain_lent_step(table: *mut Call, len: usize, mut input: Input) -> Told {
    // SAFETY: `handed` has both of one slice, which nobody else looks at meanwhile.
    let table = unsafe { std::slice::from_raw_parts_mut(table, len) };
    let answer = plain::lent::step(table, &mut input.station, &input.event);
    Told {
        answer,
        station: input.station,
    }
}

/// One event of the plain engine by that. It is called by its address, as the library's
/// entry is, so that the compiler does not look into it.
pub fn plain_step(table: &mut [Call], station: &mut Station, event: &Event) -> Answer {
    let entry: LentStep = black_box(plain_lent_step);
    handed(entry, table, station, event)
}

/// All whole records, after one test; hands back how many were done.
pub fn run(table: &mut [Call], station: &mut Station, bytes: &[u8]) -> usize {
    let mut calls = [Call::default(); 64];
    let there = table.len().min(64);
    calls[..there].copy_from_slice(&table[..there]);
    let board = Board {
        station: *station,
        len: table.len(),
        calls,
    };
    // SAFETY: the slice's own pointer and length; all values are taken.
    let ran = unsafe { whipsail_run(board, bytes.as_ptr(), bytes.len()) };
    table[..there].copy_from_slice(&ran.board.calls[..there]);
    *station = ran.board.station;
    ran.done as usize
}
