//! Tests of what waits on a call while its second leg is tried.

use crate::*;
use std::vec::Vec;

/// A call in Invoked: party 101, and 201 on leg 2.
struct Panel {
    table: [Call; 1],
    station: Station,
}

fn number(number: u16) -> Number {
    Number::new(number).expect("not 0")
}

fn reroute(leg: Leg, reason: Reason, to: u16) -> Kind {
    Kind::Reroute {
        call: 0,
        leg,
        reason,
        option: Choice::WithNumber,
        counter: 1,
        identifier: to,
        destination: number(to),
        original: None,
    }
}

fn received(leg: Leg, message: Received) -> Kind {
    let call = 0;
    Kind::Received { call, leg, message }
}

impl Panel {
    fn invoked() -> Panel {
        let (table, station) = ([Call::FREE], Station::short());
        let mut panel = Panel { table, station };
        let party = number(101);
        panel.meet(Kind::OpenOutgoing { party });
        panel.meet(received(Leg::One, Received::Alerting(None)));
        panel.meet(reroute(Leg::One, Reason::Cfnr, 201));
        panel
    }

    fn meet(&mut self, kind: Kind) -> Answer {
        let told = self.station.step(&mut self.table, &Event::at(1, kind));
        told.expect("a done event")
    }

    /// So many wait, the last one's number being 200 and so many.
    fn filled(count: u16) -> Panel {
        let mut panel = Panel::invoked();
        for at in 2..=count {
            let reason = [Reason::Cfu, Reason::Cfb][usize::from(at % 2)];
            let told = panel.meet(reroute(Leg::Two, reason, 200 + at));
            assert_eq!(letters(&told), ["R2", "X2", "S2"]);
            let Some(Message::Setup { diverting, .. }) = told.sent[2] else {
                panic!("{told:?}");
            };
            assert_eq!(diverting, number(199 + at));
        }
        panel
    }

    fn numbers(&self) -> Vec<u16> {
        let waiting = self.table[0].waiting();
        waiting.map(|dli1| dli1.number.get()).collect()
    }
}

fn letters(answer: &Answer) -> Vec<std::string::String> {
    let leg = |message: &Message| message.leg().map_or(0, Leg::number);
    let sent = answer.messages();
    sent.map(|message| std::format!("{}{}", message.letter(), leg(&message)))
        .collect()
}

#[test]
fn up_to_fifteen_wait_in_order() {
    for count in 1..=MOST_WAITING as u16 {
        let panel = Panel::filled(count);
        let call = panel.table[0];
        let expected: Vec<u16> = (201..201 + count).collect();
        assert_eq!(panel.numbers(), expected);
        assert_eq!(call.forwarded(), Some(number(200 + count)));
        assert_eq!(call.party(), Some(number(101)));
        assert_eq!(call.basic(), Some(Basic::Ringing));
        let first = Dli1 {
            reason: Reason::Cfnr,
            option: Choice::WithNumber,
            number: number(201),
        };
        assert_eq!(call.waiting().next(), Some(first));
        assert!(call
            .waiting()
            .skip(1)
            .all(|dli1| dli1.reason != Reason::Cfnr));
    }
    assert_eq!(Call::FREE.waiting().next(), None);
}

#[test]
fn no_other_invoke_waits() {
    for (count, leg, reason) in [
        (15, Leg::Two, Reason::Cfu),
        (15, Leg::Two, Reason::Cfb),
        (1, Leg::Two, Reason::Cfnr),
        (14, Leg::Two, Reason::Cfnr),
        (1, Leg::One, Reason::Cfu),
        (1, Leg::One, Reason::Cfnr),
    ] {
        let mut panel = Panel::filled(count);
        let before = panel.table;
        let told = panel.meet(reroute(leg, reason, 300));
        assert_eq!(letters(&told), [std::format!("E{}", leg.number())]);
        assert_eq!(panel.table, before);
    }
}

#[test]
fn all_are_told_of_where_leg_2_takes_over() {
    for (leg, message, sent) in [
        (Leg::Two, Received::Alerting(None), Some("X1")),
        (Leg::Two, Received::Connect(None), Some("X1")),
        (Leg::One, Received::ReleaseComplete, None),
    ] {
        let mut panel = Panel::filled(15);
        let told = panel.meet(received(leg, message));
        assert!(letters(&told).iter().eq(sent.iter()), "{told:?}");
        assert_eq!(told.notice, Some(Reason::Cfnr));
        let call = panel.table[0];
        assert_eq!(call.party(), Some(number(215)));
        assert_eq!(call.nominated(), Some(number(215)));
        assert_eq!((panel.numbers(), call.forwarded()), (Vec::new(), None));
    }
}

#[test]
fn none_is_told_of_where_leg_2_ends() {
    for (leg, message, sent) in [
        (Leg::Two, Received::ReleaseComplete, "F1"),
        (Leg::One, Received::Connect(None), "X2"),
    ] {
        let mut panel = Panel::filled(15);
        let told = panel.meet(received(leg, message));
        assert_eq!(
            (letters(&told), told.notice),
            (std::vec![sent.into()], None)
        );
        let call = panel.table[0];
        assert_eq!(call.party(), Some(number(101)));
        assert_eq!((panel.numbers(), call.nominated()), (Vec::new(), None));
    }
}

/// As an archive of format 1 left a call in Invoked that had a DLI1 before.
#[test]
fn a_record_of_format_1() {
    let mut kept = [0; 40];
    kept[..4].copy_from_slice(&[1, 2, 1, 1]);
    let numbers = [(8, 101), (12, 201), (18, 150)];
    for (at, number) in numbers {
        kept[at..at + 2].copy_from_slice(&u16::to_ne_bytes(number));
    }
    kept[10..12].copy_from_slice(&[3, 2]);
    kept[14..18].copy_from_slice(&[1, 2, 0, 0]);
    let mut panel = Panel::invoked();
    panel.table[0] = Call::from_format_1(kept);
    let call = panel.table[0];
    assert_eq!(
        (call.party(), call.nominated()),
        (Some(number(101)), Some(number(150)))
    );
    assert_eq!(panel.numbers(), [201]);
    panel.meet(reroute(Leg::Two, Reason::Cfu, 202));
    assert_eq!(panel.numbers(), [201, 202]);
}

/// The same of an incoming call with an open request.
#[test]
fn a_request_of_format_1() {
    let mut kept = [0; 40];
    kept[..8].copy_from_slice(&[2, 1, 0, 0, 1, 1, 0, 3]);
    let numbers = [(20, 102), (22, 103), (24, 104), (26, 7)];
    for (at, number) in numbers {
        kept[at..at + 2].copy_from_slice(&u16::to_ne_bytes(number));
    }
    kept[28..32].copy_from_slice(&[2, 9, 9, 9]); // the reason, and padding
    kept[32..].copy_from_slice(&1_u64.to_ne_bytes());
    let call = Call::from_format_1(kept);
    let request = call.request().expect("an open request");
    assert_eq!((request.identifier, request.start), (7, 1));
    assert_eq!((request.reason, call.counter()), (Reason::Cfb, Some(3)));
    let numbers = [call.own(), call.diverting(), call.original()];
    assert_eq!(numbers, [102, 103, 104].map(Number::new));
    let mut station = Station::kept(1, 8, 5, true, true);
    let clock = Event::at(10_001, Kind::Clock);
    let told = station.step(&mut [call], &clock).expect("a sound record");
    assert_eq!((told.call, told.identifier), (Some(0), Some(7)));
}

/// Readers say what they can, and no more than a record has.
#[test]
fn damaged_records() {
    let mut bytes = Panel::filled(15).table[0].to_bytes();
    bytes[38] = 255; // the count
    let call = Call::from_bytes(bytes);
    assert_eq!(call.waiting().count(), MOST_WAITING);
    assert_eq!(call.forwarded(), Some(number(215)));
    bytes[41] = 3; // the second one's option
    bytes[94..].fill(0); // the last one's number
    let call = Call::from_bytes(bytes);
    assert_eq!(call.waiting().count(), MOST_WAITING - 2);
    assert_eq!(call.forwarded(), None);
}
