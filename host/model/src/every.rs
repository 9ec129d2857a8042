//! Every sound record up to its numbers, and every well-made event about a
//! call up to its numbers: small enough to be tried all together.

use crate::codes::*;
use crate::event::Event;
use crate::record::{Record, FIELDS};
use crate::sound::record_sound;
use crate::waits::{Dli1, Waits, MOST_LATER};

/// A field's name and the values that it takes; any other is 0.
type Field = (&'static str, &'static [u64]);

const INCOMING_FIELDS: [Field; 10] = [
    ("direction", &[INCOMING as u64]),
    ("basic", &[1, 2, 3]),
    ("own", &[5]),
    ("cds", &[0, 1]),
    ("granted", &[0, 1]),
    ("reason", &[0, 1, 2, 3]),
    ("cdf", &[0, 1, 2]),
    ("counter", &[0, 1, 15]),
    ("diverting", &[0, 6]),
    ("identifier", &[0, 7, 8]),
];

const OUTGOING_FIELDS: [Field; 10] = [
    ("direction", &[OUTGOING as u64]),
    ("basic", &[1, 2, 3]),
    ("leg1", &[5]),
    ("cdo", &[0, 1]),
    ("cdr", &[0, 1]),
    ("seen", &[0, 1]),
    ("strictest", &[0, 1, 2]),
    ("forbidden", &[0, 1]),
    ("shown", &[0, 1]),
    ("nominated", &[0, 6]),
];

/// Every record whose fields take these values, sound or not.
fn product(fields: &[Field]) -> Vec<Record> {
    let mut records = vec![Record::default()];
    for (name, values) in fields {
        let place = FIELDS.iter().position(|field| field.0 == *name);
        let place = place.expect("a field's name");
        let with = |record: &Record, value: u64| {
            let mut all = record.values();
            all[place] = value;
            Record::from_values(&all)
        };
        let each = |record: &Record| -> Vec<Record> {
            values.iter().map(|&value| with(record, value)).collect()
        };
        records = records.iter().flat_map(each).collect();
    }
    records
}

/// None, one, two and fifteen that wait.
fn waits() -> Vec<Waits> {
    let dli1 = |reason, number| Dli1 {
        reason,
        option: WITH_NUMBER,
        number,
    };
    let mut waits = Waits::begun(dli1(CFNR, 9));
    let mut all = vec![Waits::default(), waits];
    for at in 0..MOST_LATER {
        waits.add(dli1([CFU, CFB][at % 2], 10 + at as u16));
        all.push(waits);
    }
    vec![all[0], all[1], all[2], all[15]]
}

/// The sound records of incoming calls.
pub fn incoming() -> Vec<Record> {
    let mut records = product(&INCOMING_FIELDS);
    records.retain(record_sound);
    records
}

/// The sound records of outgoing calls.
pub fn outgoing() -> Vec<Record> {
    let with = |record: Record| {
        waits()
            .into_iter()
            .map(move |w| Record { waits: w, ..record })
    };
    let records = product(&OUTGOING_FIELDS).into_iter().flat_map(with);
    records.filter(record_sound).collect()
}

/// The well-made events of a kind about call 0, at time 1.
fn of_kind(kind: u8) -> Vec<Event> {
    let start = Event {
        kind,
        time: 1,
        ..Event::default()
    };
    // Every choice of a field's value from the choices before it.
    let each = |events: Vec<Event>, values: &[u16], set: fn(&mut Event, u16)| {
        let with = |event: &Event, value: u16| {
            let mut event = *event;
            set(&mut event, value);
            event
        };
        let all = events
            .iter()
            .flat_map(|e| values.iter().map(|&v| with(e, v)));
        all.collect::<Vec<Event>>()
    };
    let mut all = vec![start];
    all = each(all, &[0, 1, 2], |e, v| e.leg = v as u8);
    all = each(all, &[0, 1, 2, 3, 4], |e, v| e.message = v as u8);
    all = each(all, &[0, 1, 2, 3], |e, v| e.reason = v as u8);
    all = each(all, &[0, 1, 2], |e, v| e.option = v as u8);
    all = each(all, &[0, 1, 15], |e, v| e.counter = v as u8);
    all = each(all, &[0, 1, 2], |e, v| e.flag = v as u8);
    all = each(all, &[0, 7, 8], |e, v| e.identifier = v);
    all = each(all, &[0, 9], |e, v| e.second = v);
    all = each(all, &[0, 4], |e, v| e.third = v);
    all.retain(Event::well_made);
    all
}

/// The well-made events about an incoming call.
pub fn to_incoming() -> Vec<Event> {
    let kinds = (USER_ALERTED..=LEG_FAILED).chain([OWN_END, FAR_END]);
    kinds.flat_map(of_kind).collect()
}

/// The well-made events about an outgoing call.
pub fn to_outgoing() -> Vec<Event> {
    (OWN_END..=MESSAGE).flat_map(of_kind).collect()
}
