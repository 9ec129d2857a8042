//! Identifier 0 upsets an old gateway: it is never sent as our own, and no
//! answer to it is taken.
#![forbid(unsafe_code)]

mod common;

use common::*;
use model::station::{self, Station};
use model::{sound, vectors, Event};

#[test]
fn the_number_after_65535_is_1() {
    assert_eq!(station::after(65_535), 1);
    assert_eq!(station::after(65_534), 65_535);
    assert_eq!(station::after(1), 2);
    let mut panel = Panel::new();
    panel.run("open incoming 9 at 1\ndivert call 0 cfu to 3 at 2");
    assert_eq!(panel.station.next_identifier, 1);
    panel.run("error call 0 id 65535 at 3");
    assert_eq!(panel.line("divert call 0 cfu to 3 at 4"), "0 0 - - 1 1 I1");
    assert_eq!(panel.station.next_identifier, 2);
}

#[test]
fn a_fresh_station_still_begins_with_65535() {
    assert_eq!(Station::fresh(1, 1, 1).unwrap().next_identifier, 65_535);
    assert_eq!(Station::short().next_identifier, 65_535);
}

#[test]
fn a_next_identifier_0_is_1_before_all_else() {
    let mut panel = Panel::new();
    panel.run(REQUESTED);
    panel.station.next_identifier = 0;
    let backward = Event {
        kind: 99,
        ..Event::default()
    };
    assert_eq!(panel.take(&backward).code, 1);
    for line in ["clock at 9", "open incoming 1 at 9", "end call 0 at 9"] {
        assert_eq!(panel.run(line).code, 1, "{line}");
    }
    for next in [1, 2, 65_535] {
        panel.station.next_identifier = next;
        assert!(sound::lent_sound(&panel.table, &panel.station));
    }
}

#[test]
fn an_open_request_with_0_is_1() {
    let mut panel = Panel::new();
    panel.run(REQUESTED);
    panel.table[0].identifier = 0;
    assert!(!sound::record_sound(&panel.table[0]));
    assert_eq!(panel.run("clock at 9").code, 1);
    panel.table[0].identifier = 1;
    assert_eq!(panel.run("clock at 9").code, 0);
    // Where no request is open the field is unused, so 0.
    panel.run("error call 0 id 1 at 9");
    assert_eq!(panel.table[0].identifier, 0);
    assert_eq!(panel.run("clock at 9").code, 0);
}

#[test]
fn a_result_or_error_with_0_is_3_before_4_5_and_6() {
    let mut panel = Panel::new();
    panel.run(REQUESTED);
    panel.run("open incoming 9 at 4\nopen outgoing 9 at 4");
    for kind in [7, 8] {
        for call in [0, 1, 2, 3, 200] {
            let mut event = Event {
                kind,
                call,
                time: 4,
                ..Event::default()
            };
            assert_eq!(panel.take(&event).code, 3, "kind {kind}, call {call}");
            event.time = 3;
            assert_eq!(panel.take(&event).code, 2, "kind {kind}, call {call}");
        }
    }
    assert_eq!(panel.run("result call 0 id 1 at 4").code, 6);
    assert_eq!(panel.run("result call 1 id 1 at 4").code, 11);
    assert_eq!(panel.run("result call 2 id 1 at 4").code, 4);
}

#[test]
fn a_received_invoke_may_bear_0_and_it_is_echoed() {
    let open = "open outgoing 101 at 1";
    let early = "reroute call 0 leg 1 cfu with-number counter 1 id 0 to 3 at 9";
    assert_eq!(last(&join(open, early)), "0 0 1 - 0 1 R1X1S1");
    let rings = join(open, "message call 0 leg 1 alerting at 2");
    let no_reply = "reroute call 0 leg 1 cfnr counter 1 id 0 to 3 at 9";
    assert_eq!(last(&join(&rings, no_reply)), "0 0 - - 0 1 R1S2");
    assert_eq!(last(&join(open, no_reply)), "0 0 - - 0 - E1");
    let on_leg_2 = "reroute call 0 leg 2 cfb counter 1 id 0 to 3 at 9";
    assert_eq!(last(&join(INVOKED, on_leg_2)), "0 0 - - 0 1 R2X2S2");
    let refused = "reroute call 0 leg 2 cfnr counter 1 id 0 to 3 at 9";
    assert_eq!(last(&join(INVOKED, refused)), "0 0 - - 0 - E2");
    let echoed = answer(&join(open, no_reply)).messages[0];
    assert_eq!((echoed.letter, echoed.identifier), ('E', 0));
}

#[test]
fn forty_open_requests_are_passed_over_across_the_wrap() {
    let mut panel = Panel::of(64, 15);
    panel.station.next_identifier = 65_516;
    for call in 0..40 {
        panel.run(&format!(
            "open incoming 9 at 1\ndivert call {call} cfu to 3 at 1"
        ));
    }
    let open: Vec<u16> = panel.table[..40].iter().map(|r| r.identifier).collect();
    let expected: Vec<u16> = (65_516..=65_535).chain(1..=20).collect();
    assert_eq!(open, expected);
    panel.run("open incoming 9 at 1");
    for (next, taken) in [(65_516, 21), (65_535, 21), (1, 21), (65_515, 65_515)] {
        panel.station.next_identifier = next;
        let sent = panel.run("divert call 40 cfu to 3 at 1");
        assert_eq!(sent.identifier, Some(taken), "next {next}");
        assert_eq!(panel.station.next_identifier, station::after(taken));
        panel.run(&format!("error call 40 id {taken} at 1"));
    }
}

#[test]
fn both_tables_draw_from_one_sequence() {
    let mut panel = Panel::new();
    panel.run(REQUESTED);
    let sent = panel.run("check request panel 7 at 4");
    assert_eq!(sent.identifier, Some(1));
    panel.run("open incoming 9 at 5");
    assert_eq!(panel.run("divert call 1 cfu to 3 at 5").identifier, Some(2));
    // After the wrap each passes over the other's.
    panel.station.next_identifier = 65_535;
    let sent = panel.run("activation request panel 7 cfu to 8 at 6");
    assert_eq!(sent.identifier, Some(3));
    panel.run("open incoming 9 at 6");
    panel.station.next_identifier = 1;
    assert_eq!(panel.run("divert call 2 cfu to 3 at 6").identifier, Some(4));
    assert_eq!(panel.station.next_identifier, 5);
}

#[test]
fn the_stored_wrap_has_forty_requests_open() {
    let files = vectors::all();
    let (_, bytes) = files.iter().find(|file| file.0 == "wrap").unwrap();
    let mut panel = Panel::new();
    let mut most = 0;
    let mut sent = vec![];
    for event in &model::panel::records(bytes).0 {
        let answer = panel.take(event);
        if event.kind == 6 {
            sent.extend(answer.identifier);
        }
        most = most.max(panel.table.iter().filter(|r| r.is_requested()).count());
    }
    assert_eq!(sent[..3], [65_535, 1, 2]);
    assert!(most >= 40, "{most}");
}
