//! The stored event files.

use crate::panel;
use crate::profile::{self, Profile};
use crate::step::step;
use crate::text;
use std::fmt::Write;

/// The page's nine events.
pub const NINE: &str = "\
open outgoing 101 at 1
reroute call 0 leg 1 cfu with-number counter 1 id 9 to 207 at 2
message call 0 leg 1 connect dli3-allowed at 3
open incoming 102 at 4
divert call 1 cfu to 300 at 1000
clock at 10999
clock at 11000
divert call 1 cfu to 300 at 11001
result call 1 id 65535 at 11002
";

/// The ways out of Invoked, and DLI3s that may come before and behind.
const OUT: [&str; 6] = [
    "message call 0 leg 2 alerting dli3-allowed",
    "message call 0 leg 2 connect dli3-allowed",
    "message call 0 leg 1 release-complete",
    "message call 0 leg 2 release-complete",
    "message call 0 leg 1 connect dli3-allowed",
    "end call 0",
];
const DLI3: &str = "message call 0 leg 1 facility dli3-allowed";

/// How many wait, and the place and word of a stricter option, if there is
/// one. Sixteen stands for a sixteenth that is refused.
const FILLED: [(usize, usize, &str); 11] = [
    (1, 0, "with-number"),
    (1, 0, ""),
    (2, 0, "with-number"),
    (2, 0, "without-number"),
    (2, 1, ""),
    (15, 0, "with-number"),
    (16, 15, ""),
    (16, 0, "without-number"),
    (16, 7, "without-number"),
    (16, 14, ""),
    (16, 14, "without-number"),
];

/// One call after the other that is filled and leaves Invoked each way.
pub fn fifteen() -> String {
    let mut lines = String::new();
    let mut line = |words: &str| {
        let _ = writeln!(lines, "{words} at 1");
    };
    for (row, (count, strict, word)) in FILLED.into_iter().enumerate() {
        for (way, out) in OUT.into_iter().enumerate() {
            line("open outgoing 101");
            // Every other call has a history already.
            if (row + way) % 2 == 1 {
                line("dli1 call 0 cfu with-number to 150");
            }
            line("message call 0 leg 1 alerting");
            for at in 0..count {
                let on = ["leg 1 cfnr", "leg 2 cfu", "leg 2 cfb"][at.min(1 + at % 2)];
                let option = if at == strict { word } else { "with-number" };
                let (counter, number) = (at % 15 + 1, 201 + at);
                line(&format!(
                    "reroute call 0 {on} {option} counter {counter} id {at} to {number}"
                ));
            }
            // On leg 1 and with cfnr nothing more is taken.
            line("reroute call 0 leg 1 cfu with-number counter 1 id 77 to 300");
            line("reroute call 0 leg 2 cfnr with-number counter 1 id 78 to 300");
            for words in [DLI3, out, DLI3, "end call 0"] {
                line(words);
            }
        }
    }
    lines
}

/// Sixty-four calls with an open request and the four sorts pending, all of
/// one time: "68 of them leave nothing due" (02, Seven).
pub fn sixty_eight() -> String {
    let mut lines = String::new();
    let mut line = |words: &str, time: u64| {
        let _ = writeln!(lines, "{words} at {time}");
    };
    let requests = [
        "activation request panel 7 cfu to 8",
        "deactivation request panel 7 cfb",
        "interrogation request panel 7 cfnr",
        "check request panel 8",
    ];
    for call in 0..64 {
        line("open incoming 9", 1);
        line(&format!("divert call {call} cfu to 3"), 1);
        // Drawn between the calls' identifiers, and a second one is 9.
        if call % 16 == 15 {
            line(requests[call / 16], 1);
            line(requests[call / 16], 1);
        }
    }
    for (clocks, time) in [(1, 10_000), (68, 30_001), (1, 30_001)] {
        for _ in 0..clocks {
            line("clock", time);
        }
    }
    requests.into_iter().for_each(|words| line(words, 30_001));
    // T3, T4 and T5 are due, and then T2.
    for (clocks, time) in [(1, 45_000), (4, 45_001), (1, 60_000), (2, 60_001)] {
        for _ in 0..clocks {
            line("clock", time);
        }
    }
    lines
}

/// What brings an incoming call into each state; ID is its identifier.
const INCOMING: [&[&str]; 7] = [
    &[],
    &["divert call 0 cfu to 3"],
    &["divert call 0 cfb to 3", "result call 0 id ID"],
    &["alerted call 0"],
    &["alerted call 0", "divert call 0 cfnr to 3"],
    &[
        "alerted call 0",
        "divert call 0 cfnr to 3",
        "result call 0 id ID",
    ],
    &["answer call 0"],
];

const TO_INCOMING: [&str; 12] = [
    "alerted call 0",
    "answer call 0",
    "divert call 0 cfu to 3",
    "divert call 0 cfb to 3",
    "divert call 0 cfnr to 3",
    "result call 0 id ID",
    "result call 0 id 40000",
    "error call 0 id ID",
    "error call 0 id 40000",
    "leg-failed call 0",
    "end call 0",
    "far-end call 0",
];

const RINGS: &str = "message call 0 leg 1 alerting";
const CONNECTS: &str = "message call 0 leg 1 connect";
const TOLD: &str = "dli1 call 0 cfu with-number to 150";
const INVOKES: &str = "reroute call 0 leg 1 cfnr counter 1 id 9 to 207";

/// What brings an outgoing call into each state.
const OUTGOING: [&[&str]; 8] = [
    &[],
    &[TOLD],
    &[RINGS],
    &[TOLD, RINGS],
    &[RINGS, INVOKES],
    &[TOLD, RINGS, INVOKES],
    &[CONNECTS],
    &[TOLD, CONNECTS],
];

const TO_OUTGOING: [&str; 14] = [
    "reroute call 0 leg 1 cfu counter 1 id 9 to 3",
    INVOKES,
    "reroute call 0 leg 2 cfb counter 1 id 9 to 3",
    "reroute call 0 leg 2 cfnr counter 1 id 9 to 3",
    TOLD,
    DLI3,
    RINGS,
    CONNECTS,
    "message call 0 leg 1 release-complete",
    "message call 0 leg 2 facility dli3-allowed",
    "message call 0 leg 2 alerting",
    "message call 0 leg 2 connect",
    "message call 0 leg 2 release-complete",
    "end call 0",
];

/// One call after the other in each state, each with one event: those that a
/// state takes, and those that are 10 and 11 (02, Eight). At the end answers
/// with none pending.
pub fn every_state() -> String {
    let mut lines = String::new();
    let (mut table, mut station) = panel::start();
    let mut line = |words: &str| {
        let identifier = match table[0].identifier {
            0 => 7,
            open => open,
        };
        let words = format!("{words} at 1\n").replace("ID", &identifier.to_string());
        for event in panel::records(&text::encode(&words).unwrap_or_default()).0 {
            step(&mut table, &mut station, &event);
        }
        lines.push_str(&words);
    };
    let incoming = ("open incoming 9", &INCOMING[..], &TO_INCOMING[..]);
    let outgoing = ("open outgoing 101", &OUTGOING[..], &TO_OUTGOING[..]);
    for (open, states, events) in [incoming, outgoing] {
        for (before, event) in states
            .iter()
            .flat_map(|s| events.iter().map(move |e| (s, e)))
        {
            line(open);
            before.iter().for_each(|words| line(words));
            line(event);
            line("end call 0");
        }
    }
    // 10 before 7.
    line("open incoming 9 diverted cfu counter 15");
    line("divert call 0 cfnr to 3");
    line("divert call 0 cfu to 3");
    for sort in ["activation", "deactivation", "interrogation", "check"] {
        let told = if sort == "interrogation" { " to 3" } else { "" };
        line(&format!("{sort} result id 1{told}"));
        line(&format!("{sort} error id 0"));
    }
    lines
}

/// Events of each profile's file.
const COUNT: usize = 1000;

/// Each file's name and bytes; the hostile one ends in a cut record.
pub fn all() -> Vec<(&'static str, Vec<u8>)> {
    let mut files = vec![
        ("nine", text::encode(NINE).unwrap_or_default()),
        ("fifteen", text::encode(&fifteen()).unwrap_or_default()),
        (
            "sixty-eight",
            text::encode(&sixty_eight()).unwrap_or_default(),
        ),
        (
            "every-state",
            text::encode(&every_state()).unwrap_or_default(),
        ),
    ];
    for (at, profile) in profile::ALL.into_iter().enumerate() {
        let events = profile::events(profile, 4503 + at as u64, COUNT);
        let mut bytes = panel::bytes(&events);
        if profile == Profile::Hostile {
            bytes.extend([13, 0, 0, 0, 3, 2, 0]);
        }
        files.push((profile.name(), bytes));
    }
    files
}
