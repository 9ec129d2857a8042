//! The table of legs in `whipsail_answer.h` is what the library does: every event on
//! an outgoing call, in every state, on every leg.
#![forbid(unsafe_code)]

use compare::headers;
use model::text;
use whipsail::{Answer, Call, Event, Leg, Number, Refusal, Station, MOST_WAITING};

const RINGS: &str = "message call 0 leg 1 alerting";
const CFNR: &str = "reroute call 0 leg 1 cfnr counter 1 id 9 to 202";
const ON: &str = "reroute call 0 leg 2 cfu counter 1 id 9 to 202";

/// Each state, and what brings an opened call there, its last event so often. The
/// call's party is 101, and that on leg 2 is 202.
const STATES: [(&str, &[&str], usize); 6] = [
    ("Proceeding", &[], 1),
    ("Delivered", &[RINGS], 1),
    ("Active", &["message call 0 leg 1 connect"], 1),
    ("Invoked (room)", &[RINGS, CFNR], 1),
    ("Invoked (room)", &[RINGS, CFNR, ON], MOST_WAITING - 2),
    ("Invoked (full)", &[RINGS, CFNR, ON], MOST_WAITING - 1),
];

/// Each event as the table names it; one that uses a leg has it for `LEG`. A SETUP
/// is to 303.
const EVENTS: [(&str, &str); 9] = [
    (
        "REROUTE CFU",
        "reroute call 0 leg LEG cfu counter 1 id 9 to 303",
    ),
    (
        "REROUTE CFB",
        "reroute call 0 leg LEG cfb counter 1 id 9 to 303",
    ),
    (
        "REROUTE CFNR",
        "reroute call 0 leg LEG cfnr counter 1 id 9 to 303",
    ),
    ("DLI1", "dli1 call 0 cfu to 300"),
    ("FACILITY", "message call 0 leg LEG facility dli3-allowed"),
    ("ALERTING", "message call 0 leg LEG alerting"),
    ("CONNECT", "message call 0 leg LEG connect"),
    ("RELEASE", "message call 0 leg LEG release-complete"),
    ("END", "end call 0"),
];

/// The parties on leg 1 and leg 2; 0 where there is none.
type Legs = [u16; 2];

struct Panel {
    table: [Call; 1],
    station: Station,
}

impl Panel {
    fn meet(&mut self, line: &str) -> Result<Answer, Refusal> {
        let bytes = text::encode(&format!("{line} at 1")).expect("an event");
        let event = Event::from_bytes(bytes[..].try_into().expect("a record"));
        self.station.step(&mut self.table, &event)
    }

    fn in_state(before: &[&str], times: usize, diverted: bool) -> Panel {
        let (table, station) = ([Call::FREE], Station::short());
        let mut panel = Panel { table, station };
        let dli1 = diverted.then_some("dli1 call 0 cfu to 300");
        let again = before.last().into_iter().cycle().take(times - 1);
        for line in ["open outgoing 101"]
            .into_iter()
            .chain(dli1)
            .chain(before.iter().chain(again).copied())
        {
            assert!(panel.meet(line).is_ok(), "{line}");
        }
        panel
    }

    /// As the record says.
    fn legs(&self) -> Legs {
        let number = |number: Option<Number>| number.map_or(0, Number::get);
        [
            number(self.table[0].party()),
            number(self.table[0].forwarded()),
        ]
    }
}

/// As a host keeps them that knows the rule for legs and no record.
fn kept(before: Legs, event: &str, leg: &str, answer: &Answer) -> Legs {
    let mut legs = before;
    let place = |leg: Leg| usize::from(leg.number()) - 1;
    if event == "RELEASE" {
        legs[leg.parse::<usize>().expect("a leg") - 1] = 0;
    }
    for message in answer.messages() {
        let leg = place(message.leg().expect("a leg"));
        match message {
            whipsail::Message::ReleaseComplete { .. } => legs[leg] = 0,
            whipsail::Message::Setup { destination, .. } => legs[leg] = destination.get(),
            _ => {}
        }
    }
    match legs[0] {
        0 => [legs[1], 0],
        _ => legs,
    }
}

/// The last column of the table.
fn then(words: &str, before: Legs) -> Legs {
    match words {
        "same" => before,
        "SETUP is 1" => [303, before[1]],
        "SETUP is 2" => [before[0], 303],
        "2 is gone" => [before[0], 0],
        "2 is 1" => [before[1], 0],
        "none" => [0, 0],
        _ => panic!("legs then: {words}"),
    }
}

/// Whether a row is about this event, on this leg and in this state; `Invoked` is that
/// with room and that which is full.
fn is_about(row: &[String], event: &str, leg: &str, state: &str) -> bool {
    let [events, legs, places, ..] = row else {
        panic!("{row:?}");
    };
    let (kind, reasons) = events.split_once(' ').unwrap_or((events, ""));
    let (this, reason) = event.split_once(' ').unwrap_or((event, ""));
    let named = |list: &str, word: &str| list.split(", ").any(|one| one == word);
    let (plain, _) = state.split_once(' ').unwrap_or((state, ""));
    let there = match places.strip_prefix("all but ") {
        Some(but) => !named(but, plain),
        None => named(places, plain) || named(places, state),
    };
    kind == this && (reasons.is_empty() || named(reasons, reason)) && legs == leg && there
}

fn sent(answer: &Answer) -> String {
    let message = |message: whipsail::Message| {
        let leg = message.leg().map_or(0, Leg::number);
        format!("{}{leg}", message.letter())
    };
    let letters: Vec<String> = answer.messages().map(message).collect();
    match letters.is_empty() {
        true => "-".to_string(),
        false => letters.join(" "),
    }
}

/// "with 11 that FACILITY, on leg 1 before Active, and all but FACILITY on leg 2 in
/// Delivered; with 10 what is left"
fn refused(event: &str, leg: &str, state: &str) -> Refusal {
    let forbidden = match (event, leg) {
        ("FACILITY", "1") => state != "Active",
        ("FACILITY", _) => false,
        _ => leg == "2" && state == "Delivered",
    };
    match forbidden {
        true => Refusal::NotInServiceState,
        false => Refusal::NotInBasicState,
    }
}

#[test]
fn the_table_of_legs_is_what_the_library_does() {
    let header = headers::text("whipsail_answer.h");
    let rows = headers::rows(&header, "event             leg");
    assert_eq!(rows.len(), 19, "{rows:?}");
    let mut used = vec![0; rows.len()];
    for (state, before, times) in STATES {
        for (event, line) in EVENTS {
            let legs: &[&str] = if line.contains("LEG") {
                &["1", "2"]
            } else {
                &["-"]
            };
            for (leg, diverted) in legs.iter().flat_map(|leg| [(leg, true), (leg, false)]) {
                let mut panel = Panel::in_state(before, times, diverted);
                let stood = panel.legs();
                let told = panel.meet(&line.replace("LEG", leg));
                let about = |row: &Vec<String>| is_about(row, event, leg, state);
                let found: Vec<usize> = (0..rows.len()).filter(|&at| about(&rows[at])).collect();
                let case = format!("{event} on {leg} in {state}, {diverted}: {told:?}");
                // "FACILITY also where `cdo` is Idle"
                if found.is_empty() || (event == "FACILITY" && !diverted) {
                    assert_eq!(told, Err(refused(event, leg, state)), "{case}");
                    continue;
                }
                let ([at], Ok(answer)) = (&found[..], &told) else {
                    panic!("{case}, rows {found:?}");
                };
                used[*at] += 1;
                assert_eq!(rows[*at][3], sent(answer), "{case}");
                assert_eq!(then(&rows[*at][4], stood), panel.legs(), "{case}");
                assert_eq!(kept(stood, event, leg, answer), panel.legs(), "{case}");
            }
        }
    }
    assert!(used.iter().all(|&count| count > 0), "{used:?}");
}
