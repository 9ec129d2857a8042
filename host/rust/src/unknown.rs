//! What no archive says today: every number that is not known is told apart from
//! those that are, and none is dropped.

use crate::raw;
use crate::*;

fn answered(code: u8) -> raw::Answer {
    raw::Answer {
        code,
        call: 255,
        sent: [raw::Message::default(); 3],
        notice: 255,
        number: 0,
        identifier: 65_536,
        counter: 0,
    }
}

/// The numbers that one of these enums has no name for.
fn unnamed<T>(of: fn(u8) -> T, other: fn(&T) -> bool, number: fn(T) -> u8) -> usize {
    let all = 0..=255_u8;
    assert!(all.clone().all(|n| number(of(n)) == n));
    all.filter(|&n| other(&of(n))).count()
}

#[test]
fn every_number_is_kept() {
    let other = |refusal: &Refusal| matches!(refusal, Refusal::Other(_));
    assert_eq!(unnamed(Refusal::of, other, Refusal::number), 256 - 10);
    let other = |reason: &Reason| matches!(reason, Reason::Other(_));
    assert_eq!(unnamed(Reason::of, other, Reason::number), 256 - 4);
    let other = |ending: &Ending| matches!(ending, Ending::Other(_));
    assert_eq!(unnamed(Ending::of, other, Ending::number), 256 - 3);
}

#[test]
fn no_code_but_0_is_done() {
    for code in 0..=255 {
        let told = Answer::read(&answered(code));
        assert_eq!(told.err().map(Refusal::number), (code != 0).then_some(code));
    }
    // no longer given, and not yet
    for code in [5, 12] {
        let told = Answer::read(&answered(code));
        assert_eq!(told, Err(Refusal::Other(code)));
    }
}

#[test]
fn no_letter_is_dropped() {
    let mut known = 0;
    for letter in 1..=255 {
        for leg in [0, 1, 2, 3] {
            let plain = PlainMessage {
                letter,
                leg,
                reason: 1,
                destination: 300,
                diverting: 102,
                number: 3,
                ..PlainMessage::default()
            };
            let sent = Message::read(&plain).expect("a message");
            assert_eq!((sent.letter(), sent.leg()), (letter as char, Leg::of(leg)));
            match sent {
                Message::Other(same) => assert_eq!(same, plain),
                _ => known += 1,
            }
        }
    }
    assert_eq!(known, 2 * "ACDIREXSF".len() + "adicre".len());
    assert_eq!(Message::read(&PlainMessage::default()), None);
}

#[test]
fn arguments_that_are_not_known_are_kept() {
    let setup = PlainMessage {
        letter: b'S',
        leg: 1,
        reason: 9,
        destination: 300,
        diverting: 102,
        ..PlainMessage::default()
    };
    let Some(Message::Setup { reason, .. }) = Message::read(&setup) else {
        panic!("a SETUP");
    };
    assert_eq!(reason, Reason::Other(9));
    let to_nobody = PlainMessage {
        destination: 0,
        ..setup
    };
    assert_eq!(Message::read(&to_nobody), Some(Message::Other(to_nobody)));
    for (letter, reason, number) in [(b'a', 1, 0), (b'd', 0, 3), (b'i', 4, 3), (b'c', 0, 0)] {
        let odd = PlainMessage {
            letter,
            reason,
            number,
            destination: 300,
            ..PlainMessage::default()
        };
        assert_eq!(Message::read(&odd), Some(Message::Other(odd)));
    }
    let told = |notice| {
        let answer = raw::Answer {
            notice,
            ..answered(0)
        };
        Answer::read(&answer).map(|answer| answer.notice)
    };
    assert_eq!(told(255), Ok(None));
    assert_eq!(told(4), Ok(Some(Reason::Other(4))));
}

#[test]
fn a_rehearsal_is_not_misread() {
    let told = |code, ending, last| {
        let counter = 2;
        Rehearsal::read(&raw::Rehearsed {
            code,
            ending,
            last,
            counter,
        })
    };
    assert_eq!(told(0, 4, 7).map(|told| told.ending), Ok(Ending::Other(4)));
    assert_eq!(told(14, 0, 0), Err(Refusal::Other(14)));
    assert_eq!(told(3, 0, 0), Err(Refusal::NotWellMade));
    assert_eq!(told(0, 1, 0), Err(Refusal::Other(0)));
}

#[test]
fn the_archive_has_the_format() {
    assert_eq!(raw::format(), FORMAT);
}
