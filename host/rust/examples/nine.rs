//! A host in a page: owns a table of call records and a station, lends them to
//! the engine for each of document 01's nine events, and prints the panel's lines.
//! The last event is refused; stderr says why.
#![forbid(unsafe_code)]

use whipsail::{Answer, Call, Choice, Dli3, Event, Kind, Leg, Number, Reason, Received};
use whipsail::{Refusal, Station};

fn events() -> [Event; 9] {
    let number = |number| Number::new(number).expect("party numbers are not 0");
    let divert = Kind::Divert {
        call: 1,
        reason: Reason::Cfu,
        option: Choice::NoNotification,
        destination: number(300),
    };
    let reroute = Kind::Reroute {
        call: 0,
        leg: Leg::One,
        reason: Reason::Cfu,
        option: Choice::WithNumber,
        counter: 1,
        identifier: 9,
        destination: number(207),
        original: None,
    };
    let connect = Kind::Received {
        call: 0,
        leg: Leg::One,
        message: Received::Connect(Some(Dli3 {
            allowed: true,
            number: None,
        })),
    };
    let result = Kind::Result {
        call: 1,
        identifier: 65535,
    };
    [
        Event::at(1, Kind::OpenOutgoing { party: number(101) }),
        Event::at(2, reroute),
        Event::at(3, connect),
        Event::at(4, Kind::OpenIncoming { own: number(102) }),
        Event::at(1000, divert),
        Event::at(10999, Kind::Clock),
        Event::at(11000, Kind::Clock),
        Event::at(11001, divert),
        Event::at(11002, result),
    ]
}

fn column(value: Option<impl ToString>) -> String {
    value.map_or("-".to_string(), |value| value.to_string())
}

fn line(position: usize, told: &Result<Answer, Refusal>) -> String {
    let answer = match told {
        Ok(answer) => answer,
        Err(refusal) => return format!("{position} {} - - - - - -", refusal.number()),
    };
    let messages: String = answer
        .messages()
        .map(|message| (message.letter(), message.leg().map_or(0, Leg::number)))
        .map(|(letter, leg)| format!("{letter}{leg}"))
        .collect();
    [
        position.to_string(),
        "0".to_string(),
        column(answer.call),
        column(answer.notice.map(Reason::number)),
        column(answer.number),
        column(answer.identifier),
        column(answer.counter),
        column(Some(messages).filter(|messages| !messages.is_empty())),
    ]
    .join(" ")
}

fn main() {
    let mut table = [Call::FREE; 64];
    // The printout has limit 15; the short form, `Station::short()`, has 5.
    let mut station = Station::fresh(15, true, true).expect("a limit of 1 to 15");
    for (position, event) in events().iter().enumerate() {
        let told = station.step(&mut table, event);
        println!("{}", line(position, &told));
        if let Err(refusal) = told {
            eprintln!("{position} is refused: {refusal}");
        }
    }
}
