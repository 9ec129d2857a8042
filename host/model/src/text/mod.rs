//! A small text form of event records, one to a line. `#` begins a comment;
//! empty lines are passed over. Words in brackets may be left out.
//!
//! ```text
//! open outgoing N at T
//! open incoming N at T
//! open incoming N diverted REASON counter C [from N] [original N] at T
//! alerted call K at T
//! answer call K [allowed] at T
//! divert call K REASON [OPTION] to N at T
//! result call K id I at T
//! error call K id I at T
//! leg-failed call K at T
//! clock at T
//! end call K at T
//! reroute call K leg L REASON [OPTION] counter C id I to N [original N] at T
//! dli1 call K REASON [OPTION] to N at T
//! message call K leg L MESSAGE [DLI3 [number N]] at T
//! far-end call K at T
//! activation request panel N TYPE to N at T
//! deactivation request panel N TYPE at T
//! interrogation request panel N TYPE at T
//! check request panel N at T
//! activation invoke panel N TYPE id J to N at T
//! deactivation invoke panel N TYPE id J at T
//! interrogation invoke panel N TYPE id J at T
//! check invoke panel N id J at T
//! SORT result id J [to N] at T
//! SORT error id J at T
//! raw HHHHHHHHHHHHHHHHHHHHHHHHHHHHHHHHHHHHHHHHHHHHHHHH
//! cut HH...
//! ```
//!
//! N is a number from 1 to 65535, K 0 to 255, C 1 to 15, I 1 to 65535 and with
//! `reroute` also 0, L 1 or 2, T 0 to 18446744073709551615. REASON is `cfu`, `cfb` or `cfnr`, and with
//! `diverted` and `dli1` also `unknown`. OPTION is `without-number` or
//! `with-number`; left out it is no notification. MESSAGE is `facility`,
//! `alerting`, `connect` or `release-complete`; DLI3 is `dli3-allowed` or
//! `dli3-forbidden`: `facility` needs one, `release-complete` has none.
//! SORT is `activation`, `deactivation`, `interrogation` or `check`; the result
//! of an interrogation needs its number, and no other has one. TYPE is `cfu`,
//! `cfb` or `cfnr`, J 0 to 65535.
//! `raw` holds the 48 hex digits of a record that is not well made, `cut` the
//! 1 to 23 bytes of a cut last record; nothing may follow it.

mod read;
mod remote;
mod words;
mod write;

pub use read::{encode, read_line, Line};
pub use write::{decode, write_event};

/// Words of the reasons, by number.
const REASONS: [&str; 4] = ["unknown", "cfu", "cfb", "cfnr"];
/// Words of the options, by number; the first is left out.
const OPTIONS: [&str; 3] = ["", "without-number", "with-number"];
/// Words of the messages of kind 14, by number from 1.
const MESSAGES: [&str; 4] = ["facility", "alerting", "connect", "release-complete"];
/// Words of the flags of kind 14, by number; the first is left out.
const DLI3S: [&str; 3] = ["", "dli3-allowed", "dli3-forbidden"];
/// First words of the kinds that have a call, and an identifier if so marked,
/// and nothing else.
const SHORT: [(u8, &str, bool); 6] = [
    (crate::codes::USER_ALERTED, "alerted", false),
    (crate::codes::RESULT, "result", true),
    (crate::codes::ERROR, "error", true),
    (crate::codes::LEG_FAILED, "leg-failed", false),
    (crate::codes::OWN_END, "end", false),
    (crate::codes::FAR_END, "far-end", false),
];
