//! The model's values as the plain engine's, which lie in memory as those of
//! `whipsail.h`.

use plain::answer::{Answer, Message};
use plain::call::{Call, Dli1, Unused};
use plain::event::Event;
use plain::remote::{Pending, Remote};
use plain::station::Station;

pub fn call(r: &model::Record) -> Call {
    Call {
        direction: r.direction,
        basic: r.basic,
        cdo: r.cdo,
        cdr: r.cdr,
        cds: r.cds,
        cdf: r.cdf,
        granted: r.granted,
        counter: r.counter,
        start: r.start,
        party: r.leg1,
        seen: r.seen,
        strictest: r.strictest,
        forbidden: r.forbidden,
        shown: r.shown,
        nominated: r.nominated,
        own: r.own,
        diverting: r.diverting,
        original: r.original,
        identifier: r.identifier,
        reason: r.reason,
        // anything may stand there
        unused: Unused(0xa5),
        first: dli1(&r.waits.first),
        count: r.waits.count,
        unused_too: Unused(0x5a),
        later: r.waits.later.each_ref().map(dli1),
    }
}

fn dli1(d: &model::Dli1) -> Dli1 {
    Dli1 {
        reason: d.reason,
        option: d.option,
        number: d.number,
    }
}

pub fn table(records: &[model::Record]) -> Vec<Call> {
    records.iter().map(call).collect()
}

pub fn station(s: &model::Station) -> Station {
    Station {
        last: s.last_time,
        next: s.next_identifier,
        limit: s.limit,
        remote: remote(&s.remote),
    }
}

fn remote(r: &model::remote::Remote) -> Remote {
    let pending = |p: &model::remote::Pending| Pending {
        start: p.start,
        identifier: p.identifier,
        wait: p.wait,
        // anything may stand there
        unused: [Unused(0xa5); 5],
    };
    Remote {
        pending: r.pending.each_ref().map(pending),
        kept: r.kept,
        enabled: r.enabled,
        allowed: r.allowed,
    }
}

pub fn event(e: &model::Event) -> Event {
    Event::decode(&e.encode())
}

fn message(m: &model::Message) -> Message {
    Message {
        letter: m.letter as u8,
        leg: m.leg,
        reason: m.reason,
        option: m.option,
        counter: m.counter,
        flag: m.flag,
        identifier: m.identifier,
        destination: m.destination,
        diverting: m.diverting,
        original: m.original,
        number: m.number,
    }
}

pub fn answer(a: &model::Answer) -> Answer {
    let mut sent = [Message::default(); 3];
    for (place, m) in sent.iter_mut().zip(&a.messages) {
        *place = message(m);
    }
    Answer {
        code: a.code,
        call: a.call.unwrap_or(255),
        sent,
        notice: a.notice.unwrap_or(255),
        number: a.number.unwrap_or(0),
        identifier: a.identifier.map_or(65536, u32::from),
        counter: a.counter.unwrap_or(0),
    }
}
