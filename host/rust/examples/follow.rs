//! Follow me: a fitter at panel 7 has panel 3 forward its calls to panel 7, asks where it
//! forwards them to, and ends that. Both panels are stations of this program, so what one
//! sends is an event of the other; the last request is lost on the way, and ends by its
//! time. Prints a line for each event, those of `host/c/follow.c`.
#![forbid(unsafe_code)]

use whipsail::{Ask, Call, Choice, Event, Forward, Kind, Message, Number, Sort, Station};

struct Panel {
    number: Number,
    station: Station,
    table: [Call; 4],
}

impl Panel {
    /// One event; hands back the message that it sends.
    fn meet(&mut self, time: u64, kind: Kind) -> Option<Message> {
        let told = self.station.step(&mut self.table, &Event::at(time, kind));
        let sent = told.ok().and_then(|answer| answer.sent[0]);
        let identifier = told.ok().and_then(|answer| answer.identifier);
        let said = match (told, sent, identifier) {
            (Err(refusal), ..) => format!("refused, {}", refusal.text()),
            (_, Some(sent), Some(identifier)) => format!("{} {identifier}", sent.text()),
            (_, None, Some(identifier)) => format!("request {identifier} ends"),
            _ => "done".to_string(),
        };
        println!("{time:5} panel {}, {}: {said}", self.number, kind.text());
        sent
    }

    /// The user asks another panel: the invoke goes there, and its answer back.
    fn ask(&mut self, to: &mut Panel, time: u64, ask: Ask) {
        let (panel, sort) = (self.number, ask.sort());
        let request = Kind::Ask {
            panel: to.number,
            ask,
        };
        let Some(Message::Ask {
            identifier, ask, ..
        }) = self.meet(time, request)
        else {
            return; // refused
        };
        let received = Kind::Asked {
            panel,
            identifier,
            ask,
        };
        let answer = match to.meet(time + 1, received) {
            Some(Message::RemoteResult {
                identifier,
                destination,
            }) => Kind::RemoteResult {
                sort,
                identifier,
                destination,
            },
            _ => Kind::RemoteError { sort, identifier },
        };
        self.meet(time + 2, answer);
        // the engine keeps nothing of it
        if let Kind::RemoteResult {
            destination: Some(there),
            ..
        } = answer
        {
            println!("      panel {} forwards to {there}", to.number);
        }
    }
}

fn main() {
    let [mut three, mut seven] = [3, 7].map(|number| Panel {
        number: Number::new(number).expect("party numbers are not 0"),
        station: Station::short(),
        table: [Call::FREE; 4],
    });
    let (forward, destination) = (Forward::Cfu, seven.number);
    let follow = Ask::Activation {
        forward,
        destination,
    };
    seven.ask(&mut three, 1, follow);
    // a number that was set may be checked; whatever the answer, it stays valid
    three.ask(&mut seven, 11, Ask::Check);
    seven.ask(&mut three, 21, Ask::Interrogation { forward });
    // what is kept diverts no call by itself: the host does
    let own = three.number;
    three.meet(31, Kind::OpenIncoming { own });
    let divert = Kind::Divert {
        call: 0,
        reason: forward.reason(),
        option: Choice::NoNotification,
        destination: three.station.destination(forward).expect("it was set"),
    };
    three.meet(32, divert);
    seven.ask(&mut three, 41, Ask::Deactivation { forward });
    seven.ask(&mut three, 51, Ask::Deactivation { forward }); // none stands any more
    let (panel, ask) = (three.number, follow);
    seven.meet(61, Kind::Ask { panel, ask }); // lost on the way
    seven.meet(62, Kind::Ask { panel, ask });
    let ends = 61 + Sort::Activation.time();
    seven.meet(ends - 1, Kind::Clock);
    seven.meet(ends, Kind::Clock);
}
