//! The Rust wrapper's typed values as the plain ones that are compared.

use crate::memory::Reader;
use crate::tables::{Laid, Told};
use crate::wire::{Answer, Message, Rehearsed};
use crate::{plans, stations};
use model::Station;
use std::hint::black_box;
use whipsail::{Call, Event, Forward, Leg, Number, Panel, Plan, Refusal, Rehearsal};

/// Lends the table by the wrapper, in this process.
pub fn lend(laid: &Laid) -> Told {
    let mut calls: Vec<Call> = laid.before.iter().copied().map(Call::from_bytes).collect();
    let mut station = whipsail::Station::from_bytes(stations::bytes(&laid.station));
    let event = Event::from_bytes(&laid.event.encode());
    let told = station.step(&mut calls[laid.lent()], &event);
    Told {
        answer: answer(told),
        station: plain(&station),
        after: calls.iter().map(Call::to_bytes).collect(),
    }
}

/// Lends the plan by the wrapper, in this process.
pub fn rehearse(laid: &plans::Laid) -> plans::Told {
    // The compiler may take a shared slice as unchanged: it forgets what it knows.
    let numbers = black_box(laid.before.clone());
    let told = Plan::of_numbers(&numbers[laid.lent()]).rehearse(laid.start);
    plans::Told {
        answer: rehearsed(told),
        after: black_box(numbers),
    }
}

/// The same by the wrapper's panels; none where a mark is above 1.
pub fn rehearse_typed(panels: &[model::plan::Panel], start: u16) -> Option<Rehearsed> {
    let typed = |panel: &model::plan::Panel| {
        let known = panel.busy <= 1 && panel.unattended <= 1;
        let typed = Panel {
            cfu: Number::new(panel.cfu),
            cfb: Number::new(panel.cfb),
            cfnr: Number::new(panel.cfnr),
            busy: panel.busy == 1,
            unattended: panel.unattended == 1,
        };
        known.then_some(typed.numbers())
    };
    let panels: Option<Vec<[u16; 4]>> = panels.iter().map(typed).collect();
    Some(rehearsed(Plan::new(&panels?).rehearse(start)))
}

fn rehearsed(told: Result<Rehearsal, Refusal>) -> Rehearsed {
    match told {
        Ok(told) => Rehearsed {
            code: 0,
            ending: told.ending.number(),
            last: told.last.get(),
            counter: told.counter,
        },
        Err(refusal) => Rehearsed::from(&Err(refusal.number())),
    }
}

/// The plain station.
pub fn plain(station: &whipsail::Station) -> Station {
    Reader(&station.to_bytes()).station()
}

fn number(number: Option<Number>) -> u16 {
    number.map_or(0, Number::get)
}

/// The plain answer of what a step told.
pub fn answer(told: Result<whipsail::Answer, Refusal>) -> Answer {
    let given = match told {
        Ok(given) => given,
        Err(refusal) => return Answer::from(&model::Answer::refused(refusal.number())),
    };
    Answer {
        code: 0,
        call: given.call.unwrap_or(255),
        sent: given
            .sent
            .map(|sent| sent.map_or(Message::default(), message)),
        notice: given.notice.map_or(255, whipsail::Reason::number),
        number: number(given.number),
        identifier: given.identifier.map_or(65_536, u32::from),
        counter: given.counter.unwrap_or(0),
    }
}

fn message(message: whipsail::Message) -> Message {
    let bare = Message {
        letter: message.letter() as u8,
        leg: message.leg().map_or(0, Leg::number),
        ..Message::default()
    };
    use whipsail::Message as M;
    match message {
        M::ConnectDli3 {
            allowed, number: n, ..
        } => Message {
            flag: u8::from(allowed),
            number: number(n),
            ..bare
        },
        M::Invoke { .. } | M::Setup { .. } => diverts(message, bare),
        M::Ask { .. } | M::RemoteResult { .. } => of_no_call(message, bare),
        M::Result { identifier, .. }
        | M::Error { identifier, .. }
        | M::RemoteError { identifier } => Message { identifier, ..bare },
        // One that the wrapper does not know differs from every message of the model.
        M::Other(other) => panic!("an unknown message: {other:?}"),
        _ => bare,
    }
}

/// The arguments of I and S.
fn diverts(message: whipsail::Message, bare: Message) -> Message {
    match message {
        whipsail::Message::Invoke {
            reason,
            option,
            counter,
            identifier,
            destination,
            last,
            original,
            ..
        } => Message {
            reason: reason.number(),
            option: option.number(),
            counter,
            identifier,
            destination: destination.get(),
            diverting: last.get(),
            original: number(original),
            ..bare
        },
        whipsail::Message::Setup {
            reason,
            counter,
            destination,
            diverting,
            original,
            ..
        } => Message {
            reason: reason.number(),
            counter,
            destination: destination.get(),
            diverting: diverting.get(),
            original: number(original),
            ..bare
        },
        _ => bare,
    }
}

/// The arguments of a, d, i, c and r.
fn of_no_call(message: whipsail::Message, bare: Message) -> Message {
    match message {
        whipsail::Message::Ask {
            panel,
            identifier,
            ask,
        } => Message {
            reason: ask.forward().map_or(0, Forward::number),
            identifier,
            destination: number(ask.destination()),
            number: panel.get(),
            ..bare
        },
        whipsail::Message::RemoteResult {
            identifier,
            destination,
        } => Message {
            identifier,
            destination: number(destination),
            ..bare
        },
        _ => bare,
    }
}
