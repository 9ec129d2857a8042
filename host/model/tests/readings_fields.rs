//! Readings of the fields of events: refusal 3, before 4, 10 and 11.
#![forbid(unsafe_code)]

mod common;

use common::*;
use model::Event;

/// The code of the last line with its event changed.
fn code_of(lines: &str, change: impl Fn(&mut Event)) -> u8 {
    let mut panel = Panel::new();
    let all = events(lines);
    let (last, before) = all.split_last().unwrap();
    for event in before {
        panel.take(event);
    }
    let mut event = *last;
    change(&mut event);
    panel.take(&event).code
}

#[test]
fn facility_needs_and_release_complete_bars_a_dli3() {
    let facility = join(DIVERT, "message call 0 leg 1 facility dli3-allowed at 3");
    assert_eq!(code_of(&facility, |_| ()), 0);
    assert_eq!(code_of(&facility, |event| event.flag = 0), 3);
    let release = join(DIVERT, "message call 0 leg 1 release-complete at 3");
    assert_eq!(code_of(&release, |_| ()), 0);
    assert_eq!(code_of(&release, |event| event.flag = 1), 3);
    assert_eq!(code_of(&release, |event| event.flag = 2), 3);
}

#[test]
fn a_number_needs_a_dli3_of_either_flag() {
    let alerting = join(
        DIVERT,
        "message call 0 leg 1 alerting dli3-forbidden number 5 at 3",
    );
    assert_eq!(code_of(&alerting, |_| ()), 0);
    assert_eq!(code_of(&alerting, |event| event.flag = 0), 3);
    assert_eq!(code_of(&alerting, |event| event.flag = 1), 0);
}

#[test]
fn the_answer_flag_is_fine_outside_wait_and_2_is_3() {
    let plain = join(RINGS, "answer call 0 allowed at 3");
    assert_eq!(last(&plain), "0 0 - - - - C1");
    assert_eq!(code_of(&plain, |event| event.flag = 2), 3);
    let wait = "open incoming 9 diverted cfu counter 1 at 1\nanswer call 0 allowed at 3";
    assert_eq!(code_of(wait, |event| event.flag = 2), 3);
}

#[test]
fn the_call_is_0_in_opens_and_clocks() {
    for line in [
        "open outgoing 9 at 1",
        "open incoming 9 at 1",
        "open incoming 9 diverted cfu counter 1 at 1",
        "clock at 1",
    ] {
        assert_eq!(code_of(line, |event| event.call = 1), 3, "{line}");
    }
}

#[test]
fn the_tables_end_is_the_lent_length() {
    let mut panel = Panel::of(3, 15);
    for call in [0, 2, 3, 63, 64, 255] {
        assert_eq!(panel.run(&format!("end call {call} at 1")).code, 4);
    }
    panel.run("open incoming 1 at 1\nopen incoming 1 at 1\nopen incoming 1 at 1");
    assert_eq!(panel.run("alerted call 2 at 1").code, 0);
    assert_eq!(panel.run("alerted call 3 at 1").code, 4);
}

#[test]
fn received_counters_are_not_held_to_the_limit() {
    let mut panel = Panel::of(2, 1);
    let open = "open incoming 9 diverted cfu counter 15 from 4 original 5 at 1";
    assert_eq!(panel.run(open).code, 0);
    let reroute = "open outgoing 9 at 1\nreroute call 1 leg 1 cfu counter 15 id 1 to 5 at 2";
    assert_eq!(panel.line(reroute), "0 1 - - 1 15 R1X1S1");
    assert_eq!(panel.run("divert call 0 cfu to 4 at 3").code, 7);
}

#[test]
fn counter_1_keeps_an_original_called_number() {
    let open = "open incoming 9 diverted cfb counter 1 from 4 original 5 at 1";
    let kept = record(open, 0);
    assert_eq!((kept.counter, kept.diverting, kept.original), (1, 4, 5));
    assert_eq!((kept.cdf, kept.reason), (1, 0));
}

/// An event of each kind and a letter for each field that it must not use.
const UNUSED: [(&str, &str); 15] = [
    ("open outgoing 9 at 1", "cmrolnfist"),
    ("open incoming 9 at 1", "cmrolnfist"),
    ("open incoming 9 diverted cfu counter 1 at 1", "cmolfi"),
    ("alerted call 0 at 1", "mrolnfi1st"),
    ("answer call 0 at 1", "mroln1ist"),
    ("divert call 0 cfu to 9 at 1", "mlnfi1t"),
    ("result call 0 id 9 at 1", "mrolnf1st"),
    ("error call 0 id 9 at 1", "mrolnf1st"),
    ("leg-failed call 0 at 1", "mrolnfi1st"),
    ("clock at 1", "cmrolnfi1st"),
    ("end call 0 at 1", "mrolnfi1st"),
    ("reroute call 0 leg 1 cfu counter 1 id 0 to 9 at 1", "mf1"),
    ("dli1 call 0 cfu to 9 at 1", "mlnfi1t"),
    ("message call 0 leg 1 alerting at 1", "roni1st"),
    ("far-end call 0 at 1", "mrolnfi1st"),
];

#[test]
fn each_unused_field_of_each_kind_must_be_0() {
    for (line, unused) in UNUSED {
        assert!(event(line).well_made(), "{line}");
        for field in unused.chars() {
            let mut event = event(line);
            match field {
                'c' => event.call = 1,
                'm' => event.message = 1,
                'r' => event.reason = 1,
                'o' => event.option = 1,
                'l' => event.leg = 1,
                'n' => event.counter = 1,
                'f' => event.flag = 1,
                'i' => event.identifier = 1,
                '1' => event.first = 1,
                's' => event.second = 1,
                _ => event.third = 1,
            }
            assert!(!event.well_made(), "{line} with {field}");
        }
    }
}

type Change = fn(&mut Event);

/// Events, each with a change that makes it wrong.
const WRONG: [(&str, Change); 22] = [
    ("clock at 1", |e| e.kind = 0),
    ("clock at 1", |e| e.kind = 32),
    ("open outgoing 9 at 1", |e| e.first = 0),
    ("open incoming 9 at 1", |e| e.first = 0),
    ("open incoming 9 diverted cfu counter 1 at 1", |e| {
        e.first = 0
    }),
    ("open incoming 9 diverted cfu counter 1 at 1", |e| {
        e.reason = 4
    }),
    ("open incoming 9 diverted cfu counter 1 at 1", |e| {
        e.counter = 0
    }),
    ("open incoming 9 diverted cfu counter 1 at 1", |e| {
        e.counter = 16
    }),
    ("divert call 0 cfu to 9 at 1", |e| e.reason = 0),
    ("divert call 0 cfu to 9 at 1", |e| e.option = 3),
    ("divert call 0 cfu to 9 at 1", |e| e.second = 0),
    ("result call 0 id 9 at 1", |e| e.identifier = 0),
    ("error call 0 id 9 at 1", |e| e.identifier = 0),
    ("reroute call 0 leg 1 cfu counter 1 id 0 to 9 at 1", |e| {
        e.leg = 0
    }),
    ("reroute call 0 leg 1 cfu counter 1 id 0 to 9 at 1", |e| {
        e.leg = 3
    }),
    ("reroute call 0 leg 1 cfu counter 1 id 0 to 9 at 1", |e| {
        e.reason = 0
    }),
    ("reroute call 0 leg 1 cfu counter 1 id 0 to 9 at 1", |e| {
        e.counter = 16
    }),
    ("reroute call 0 leg 1 cfu counter 1 id 0 to 9 at 1", |e| {
        e.second = 0
    }),
    ("dli1 call 0 unknown to 9 at 1", |e| e.reason = 4),
    ("dli1 call 0 unknown to 9 at 1", |e| e.second = 0),
    ("message call 0 leg 1 alerting at 1", |e| e.message = 0),
    ("message call 0 leg 1 alerting at 1", |e| e.message = 5),
];

#[test]
fn used_fields_are_held_to_their_ranges() {
    for (line, change) in WRONG {
        let mut event = event(line);
        change(&mut event);
        assert!(!event.well_made(), "{event:?}");
    }
}
