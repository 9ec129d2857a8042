//! The library's own structs and functions (`host/include/whipsail.h`), and all
//! of the unsafe code. Any value of these structs may be handed to the library.

use crate::{Call, Station};

#[derive(Clone, Copy, Debug, Default, PartialEq, Eq)]
#[repr(C)]
pub struct Event {
    pub kind: u8,
    pub call: u8,
    pub leg: u8,
    pub message: u8,
    pub reason: u8,
    pub option: u8,
    pub counter: u8,
    pub flag: u8,
    pub identifier: u16,
    pub first: u16,
    pub second: u16,
    pub third: u16,
    pub time: u64,
}

/// A message to send, as plain numbers; an argument that it does not have is 0.
#[derive(Clone, Copy, Debug, Default, PartialEq, Eq)]
#[repr(C)]
#[allow(missing_docs)] // fields that are named by what they hold
pub struct Message {
    pub letter: u8,
    pub leg: u8,
    pub reason: u8,
    pub option: u8,
    pub counter: u8,
    pub flag: u8,
    pub identifier: u16,
    pub destination: u16,
    pub diverting: u16,
    pub original: u16,
    pub number: u16,
}

#[derive(Clone, Copy)]
#[repr(C)]
pub struct Answer {
    pub code: u8,
    pub call: u8,
    pub sent: [Message; 3],
    pub notice: u8,
    pub number: u16,
    pub identifier: u32,
    pub counter: u8,
}

#[repr(C)]
struct Input {
    station: Station,
    event: Event,
}

#[repr(C)]
pub struct Told {
    pub answer: Answer,
    pub station: Station,
}

#[repr(C)]
pub struct Made {
    pub code: u8,
    pub station: Station,
}

#[repr(C)]
struct Read {
    whole: u8,
    event: Event,
}

#[repr(C)]
pub struct Rehearsed {
    pub code: u8,
    pub ending: u8,
    pub last: u16,
    pub counter: u8,
}

mod library {
    use super::{Call, Event, Input, Made, Read, Rehearsed, Station, Told};

    extern "C" {
        // The layout of the structs here, by its number: an archive of another one
        // does not link. It hands back the archive's format number.
        #[link_name = "whipsail_layout_3"]
        pub fn layout() -> u32;
        pub fn whipsail_fresh(limit: u8, enabled: u8, allowed: u8) -> Made;
        pub fn whipsail_fresh_short() -> Station;
        pub fn whipsail_lent_step(table: *mut Call, len: usize, input: Input) -> Told;
        pub fn whipsail_event_at(bytes: *const u8, len: usize, place: usize) -> Read;
        pub fn whipsail_well_made(event: Event) -> bool;
        pub fn whipsail_rehearse(plan: *const u16, numbers: usize, start: u16) -> Rehearsed;
    }
}

/// Refers to the layout's symbol, and calls nothing. Each function below does so:
/// what a linker keeps of them, it keeps the reference of.
#[inline(always)]
fn tied() {
    core::hint::black_box(library::layout as unsafe extern "C" fn() -> u32);
}

/// The archive's format number.
#[cfg(test)]
pub fn format() -> u32 {
    // SAFETY: takes nothing.
    unsafe { library::layout() }
}

pub fn fresh(limit: u8, enabled: u8, allowed: u8) -> Made {
    tied();
    // SAFETY: takes any numbers.
    unsafe { library::whipsail_fresh(limit, enabled, allowed) }
}

pub fn fresh_short() -> Station {
    tied();
    // SAFETY: takes nothing.
    unsafe { library::whipsail_fresh_short() }
}

pub fn lent_step(table: &mut [Call], station: Station, event: Event) -> Told {
    tied();
    let input = Input { station, event };
    // SAFETY: the pointer is a slice's, so aligned, not null, and good for the
    // slice's length, also where that is 0; it is not kept. Any records, length,
    // station and event are taken.
    unsafe { library::whipsail_lent_step(table.as_mut_ptr(), table.len(), input) }
}

pub fn event_of(bytes: &[u8; 24]) -> Event {
    tied();
    // SAFETY: 24 bytes are read at the pointer, which is not kept.
    unsafe { library::whipsail_event_at(bytes.as_ptr(), bytes.len(), 0) }.event
}

pub fn well_made(event: Event) -> bool {
    tied();
    // SAFETY: takes any event.
    unsafe { library::whipsail_well_made(event) }
}

pub fn rehearse(plan: &[u16], start: u16) -> Rehearsed {
    tied();
    // SAFETY: the pointer is a slice's, so aligned, not null, and good for the
    // slice's length, also where that is 0; it is only read, and not kept. Any
    // numbers, length and start are taken.
    unsafe { library::whipsail_rehearse(plan.as_ptr(), plan.len(), start) }
}

/// The record that lies in these bytes.
pub fn call_of(bytes: [u8; 96]) -> Call {
    // SAFETY: the sizes are equal, and a record holds numbers alone, for which
    // any bytes will do.
    unsafe { core::mem::transmute(bytes) }
}

/// The bytes in which a record lies.
pub fn bytes_of(call: Call) -> [u8; 96] {
    // SAFETY: the sizes are equal, and padding is a field of the record, so
    // that every byte is a number.
    unsafe { core::mem::transmute(call) }
}

/// Each struct's size and where its fields lie, as in `whipsail_layout.h`.
macro_rules! lies {
    ($name:ty, $size:literal, $($field:ident $at:literal)*) => {
        const _: () = {
            assert!(size_of::<$name>() == $size, stringify!($name));
            $(assert!(core::mem::offset_of!($name, $field) == $at, stringify!($name, $field));)*
        };
    };
}
pub(crate) use lies;

lies!(Event, 24, kind 0 call 1 leg 2 message 3 reason 4 option 5 counter 6 flag 7
    identifier 8 first 10 second 12 third 14 time 16);
lies!(Message, 16, letter 0 leg 1 reason 2 option 3 counter 4 flag 5 identifier 6
    destination 8 diverting 10 original 12 number 14);
lies!(Answer, 64, code 0 call 1 sent 2 notice 50 number 52 identifier 56 counter 60);
lies!(Input, 112, station 0 event 88);
lies!(Told, 152, answer 0 station 64);
lies!(Made, 96, code 0 station 8);
lies!(Read, 32, whole 0 event 8);
lies!(Rehearsed, 6, code 0 ending 1 last 2 counter 4);
const _: () = assert!(size_of::<usize>() == 8, "a machine of 64 bits");
const _: () = assert!(align_of::<Call>() == 8, "as the library asks");
