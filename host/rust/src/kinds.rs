//! Each kind of event as the library's plain numbers, and back.

use crate::{raw, Ask, Choice, Dli3, Forward, Kind, Leg, Number, Reason, Received, Sort};

fn number(given: Option<Number>) -> u16 {
    given.map_or(0, Number::get)
}

/// A kind that uses a call.
fn of_call(kind: u8, call: u8) -> raw::Event {
    raw::Event {
        kind,
        call,
        ..raw::Event::default()
    }
}

impl Kind {
    pub(crate) fn raw(&self, time: u64) -> raw::Event {
        raw::Event {
            time,
            ..match *self {
                Kind::OpenOutgoing { party } => opened(1, party),
                Kind::OpenIncoming { own } => opened(2, own),
                Kind::OpenDiverted {
                    own,
                    reason,
                    counter,
                    diverting,
                    original,
                } => raw::Event {
                    reason: reason.number(),
                    counter,
                    second: number(diverting),
                    third: number(original),
                    ..opened(3, own)
                },
                Kind::Alerted { call } => of_call(4, call),
                Kind::LegFailed { call } => of_call(9, call),
                Kind::Clock => of_call(10, 0),
                Kind::End { call } => of_call(11, call),
                Kind::FarEnd { call } => of_call(15, call),
                Kind::Raw(bytes) => {
                    let mut record = [0; 24];
                    record[..16].copy_from_slice(&bytes);
                    raw::event_of(&record)
                }
                _ => self.raw_with_fields(),
            }
        }
    }

    /// The kinds that use more than a call or a number.
    fn raw_with_fields(&self) -> raw::Event {
        match *self {
            Kind::Answered { call, allowed } => raw::Event {
                flag: u8::from(allowed),
                ..of_call(5, call)
            },
            Kind::Divert {
                call,
                reason,
                option,
                destination,
            } => told(of_call(6, call), reason, option, destination),
            Kind::Result { call, identifier } => raw::Event {
                identifier,
                ..of_call(7, call)
            },
            Kind::Error { call, identifier } => raw::Event {
                identifier,
                ..of_call(8, call)
            },
            Kind::Reroute {
                call,
                leg,
                reason,
                option,
                counter,
                identifier,
                destination,
                original,
            } => raw::Event {
                leg: leg.number(),
                counter,
                identifier,
                third: number(original),
                ..told(of_call(12, call), reason, option, destination)
            },
            Kind::Dli1 {
                call,
                reason,
                option,
                nominated,
            } => told(of_call(13, call), reason, option, nominated),
            Kind::Received { call, leg, message } => raw::Event {
                leg: leg.number(),
                ..received(of_call(14, call), message)
            },
            _ => self.raw_of_no_call(),
        }
    }

    /// The kinds that are about another panel.
    fn raw_of_no_call(&self) -> raw::Event {
        match *self {
            Kind::Ask { panel, ask } => asking(16, panel, ask),
            Kind::Asked {
                panel,
                identifier,
                ask,
            } => raw::Event {
                identifier,
                ..asking(20, panel, ask)
            },
            Kind::RemoteResult {
                sort,
                identifier,
                destination,
            } => raw::Event {
                identifier,
                second: number(destination),
                ..of_call(24 + sort.number(), 0)
            },
            Kind::RemoteError { sort, identifier } => raw::Event {
                identifier,
                ..of_call(28 + sort.number(), 0)
            },
            _ => raw::Event::default(),
        }
    }

    /// The kind of a record; its unused fields are not looked at.
    pub(crate) fn read(e: &raw::Event) -> Option<Kind> {
        let (call, identifier, counter) = (e.call, e.identifier, e.counter);
        Some(match e.kind {
            1 => Kind::OpenOutgoing {
                party: Number::new(e.first)?,
            },
            2 => Kind::OpenIncoming {
                own: Number::new(e.first)?,
            },
            3 => Kind::OpenDiverted {
                own: Number::new(e.first)?,
                reason: Reason::of(e.reason),
                counter,
                diverting: Number::new(e.second),
                original: Number::new(e.third),
            },
            4 => Kind::Alerted { call },
            5 => Kind::Answered {
                call,
                allowed: e.flag == 1,
            },
            6 => Kind::Divert {
                call,
                reason: Reason::of(e.reason),
                option: Choice::of(e.option)?,
                destination: Number::new(e.second)?,
            },
            7 => Kind::Result { call, identifier },
            8 => Kind::Error { call, identifier },
            9 => Kind::LegFailed { call },
            10 => Kind::Clock,
            11 => Kind::End { call },
            12 => Kind::Reroute {
                call,
                leg: Leg::of(e.leg)?,
                reason: Reason::of(e.reason),
                option: Choice::of(e.option)?,
                counter,
                identifier,
                destination: Number::new(e.second)?,
                original: Number::new(e.third),
            },
            13 => Kind::Dli1 {
                call,
                reason: Reason::of(e.reason),
                option: Choice::of(e.option)?,
                nominated: Number::new(e.second)?,
            },
            14 => Kind::Received {
                call,
                leg: Leg::of(e.leg)?,
                message: read_message(e)?,
            },
            15 => Kind::FarEnd { call },
            _ => return Kind::read_of_no_call(e),
        })
    }

    fn read_of_no_call(e: &raw::Event) -> Option<Kind> {
        let sort = Sort::of(e.kind % 4)?;
        let (identifier, destination) = (e.identifier, Number::new(e.second));
        let (panel, ask) = (Number::new(e.first), Ask::of(sort, e.reason, e.second));
        Some(match e.kind {
            16..=19 => Kind::Ask {
                panel: panel?,
                ask: ask?,
            },
            20..=23 => Kind::Asked {
                panel: panel?,
                identifier,
                ask: ask?,
            },
            24..=27 => Kind::RemoteResult {
                sort,
                identifier,
                destination,
            },
            28..=31 => Kind::RemoteError { sort, identifier },
            _ => return None,
        })
    }
}

/// What is asked of a panel, the first of four kinds being that of an activation.
fn asking(first: u8, panel: Number, ask: Ask) -> raw::Event {
    raw::Event {
        reason: ask.forward().map_or(0, Forward::number),
        second: number(ask.destination()),
        ..opened(first + ask.sort().number(), panel)
    }
}

fn opened(kind: u8, first: Number) -> raw::Event {
    raw::Event {
        first: first.get(),
        ..of_call(kind, 0)
    }
}

/// With a diversion's reason, option and number.
fn told(event: raw::Event, reason: Reason, option: Choice, to: Number) -> raw::Event {
    raw::Event {
        reason: reason.number(),
        option: option.number(),
        second: to.get(),
        ..event
    }
}

fn received(event: raw::Event, message: Received) -> raw::Event {
    let (message, dli3) = match message {
        Received::Facility(dli3) => (1, Some(dli3)),
        Received::Alerting(dli3) => (2, dli3),
        Received::Connect(dli3) => (3, dli3),
        Received::ReleaseComplete => (4, None),
    };
    raw::Event {
        message,
        flag: dli3.map_or(0, |dli3| if dli3.allowed { 1 } else { 2 }),
        second: dli3.map_or(0, |dli3| number(dli3.number)),
        ..event
    }
}

fn read_message(e: &raw::Event) -> Option<Received> {
    let dli3 = (e.flag != 0).then_some(Dli3 {
        allowed: e.flag == 1,
        number: Number::new(e.second),
    });
    match e.message {
        1 => dli3.map(Received::Facility),
        2 => Some(Received::Alerting(dli3)),
        3 => Some(Received::Connect(dli3)),
        4 => Some(Received::ReleaseComplete),
        _ => None,
    }
}
