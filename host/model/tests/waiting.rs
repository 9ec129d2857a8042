//! Invokes on leg 2 in Invoked: which are taken, what is sent, and how many
//! may wait.
#![forbid(unsafe_code)]

mod common;

use common::*;
use model::{Dli1, Waits};

const ON: &str = "reroute call 0 leg 2 cfu with-number counter 9 id 8 to 308 original 66 at 4";

fn after(before: &str, line: &str) -> String {
    last(&join(before, line))
}

fn leg_2(reason: &str) -> String {
    format!("reroute call 0 leg 2 {reason} with-number counter 9 id 8 to 308 at 4")
}

#[test]
fn cfu_and_cfb_on_leg_2_are_taken_in_invoked() {
    for (word, reason) in [("cfu", 1), ("cfb", 2)] {
        let taken = join(INVOKED, &leg_2(word));
        assert_eq!(last(&taken), "0 0 - - 8 9 R2X2S2");
        let kept = record(&taken, 0);
        assert_eq!((kept.basic, kept.cdr, kept.cdo, kept.seen), (2, 1, 0, 0));
        assert_eq!((kept.leg1, kept.leg2()), (101, 308));
        assert_eq!((kept.waits.first, kept.waits.count), (dli1(3, 2, 207), 1));
        assert_eq!(kept.waits.used(), [dli1(reason, 2, 308)]);
    }
}

fn dli1(reason: u8, option: u8, number: u16) -> Dli1 {
    Dli1 {
        reason,
        option,
        number,
    }
}

#[test]
fn dli2_names_leg_2s_party_before_the_event() {
    let answer = answer(&join(INVOKED, ON));
    let [result, release, setup] = answer.messages[..] else {
        panic!("{answer:?}");
    };
    assert_eq!((result.identifier, result.leg), (8, 2));
    assert_eq!((release.letter, release.leg), ('X', 2));
    assert_eq!((setup.counter, setup.reason, setup.option), (9, 1, 0));
    assert_eq!((setup.destination, setup.diverting), (308, 207));
    // "the original called number as received", not that of the first invoke
    assert_eq!(setup.original, 66);
    let again = "reroute call 0 leg 2 cfb counter 15 id 0 to 409 at 5";
    let third = common::answer(&join(&join(INVOKED, ON), again));
    assert_eq!(third.to_string(), "0 0 - - 0 15 R2X2S2");
    let setup = third.messages[2];
    assert_eq!((setup.reason, setup.counter), (2, 15));
    assert_eq!((setup.destination, setup.diverting), (409, 308));
    assert_eq!(setup.original, 0);
}

#[test]
fn its_counter_is_not_held_to_the_limit() {
    let mut panel = Panel::of(1, 1);
    panel.run(INVOKED);
    assert_eq!(panel.line(ON), "0 0 - - 8 9 R2X2S2");
}

#[test]
fn a_destination_that_is_a_party_already_is_taken() {
    for party in [101, 207] {
        let line = format!("reroute call 0 leg 2 cfu counter 1 id 8 to {party} at 4");
        assert_eq!(after(INVOKED, &line), "0 0 - - 8 1 R2X2S2");
        assert_eq!(record(&join(INVOKED, &line), 0).leg2(), party);
    }
}

#[test]
fn cfnr_on_leg_2_and_any_reason_on_leg_1_get_the_error() {
    for count in [1, 2, 14, 15] {
        let before = waiting(count);
        for (leg, reason) in [(2, "cfnr"), (1, "cfu"), (1, "cfb"), (1, "cfnr")] {
            let line = format!("reroute call 0 leg {leg} {reason} counter 1 id 4 to 3 at 9");
            let mut panel = Panel::new();
            panel.run(&before);
            assert_eq!(panel.line(&line), format!("0 0 - - 4 - E{leg}"));
            assert_eq!(panel.table[0], record(&before, 0));
            assert_eq!(panel.station.last_time, 9);
        }
    }
}

#[test]
fn fifteen_wait_and_a_sixteenth_gets_the_error() {
    let mut panel = Panel::new();
    panel.run(INVOKED);
    for at in 1..15 {
        let line = format!("reroute call 0 leg 2 cfu counter 1 id {at} to {at} at 4");
        assert_eq!(panel.line(&line), format!("0 0 - - {at} 1 R2X2S2"));
        assert_eq!(panel.table[0].waits.count, at);
    }
    let full = panel.table[0];
    assert_eq!((full.waits.in_order().len(), full.leg2()), (15, 14));
    for reason in ["cfu", "cfb", "cfnr"] {
        assert_eq!(panel.line(&leg_2(reason)), "0 0 - - 8 - E2");
        assert_eq!(panel.table[0], full);
    }
    // A drop makes room for fifteen again.
    panel.run("message call 0 leg 2 release-complete at 4");
    assert_eq!(panel.table[0].waits, Waits::default());
    panel.run("reroute call 0 leg 1 cfnr with-number counter 2 id 7 to 207 at 4");
    for at in 2..=15 {
        assert_eq!(panel.line(&leg_2("cfb")), "0 0 - - 8 9 R2X2S2", "{at}");
    }
    assert_eq!(panel.line(&leg_2("cfb")), "0 0 - - 8 - E2");
}

#[test]
fn outside_invoked_an_invoke_on_leg_2_is_refused() {
    let alerts = "message call 0 leg 2 alerting at 4";
    let handed = join(&waiting(3), alerts);
    let dropped = join(&waiting(3), "message call 0 leg 2 release-complete at 4");
    let connected = join(&waiting(3), "message call 0 leg 1 connect at 4");
    for before in [handed, dropped] {
        assert_eq!(after(&before, ON), "11 - - - - - -");
    }
    for before in [connected, DIVERT.to_string()] {
        assert_eq!(after(&before, ON), "10 - - - - - -");
    }
}

#[test]
fn what_waits_stays_over_events_that_leave_it_alone() {
    for (line, answer) in [
        ("message call 0 leg 1 alerting at 4", "0 0 - - - - -"),
        ("dli1 call 0 cfb with-number to 9 at 4", "0 0 2 - - - -"),
        ("clock at 99999", "0 - - - - - -"),
        (
            "message call 0 leg 1 facility dli3-allowed at 4",
            "11 - - - - - -",
        ),
        (
            "message call 0 leg 2 facility dli3-allowed at 4",
            "10 - - - - - -",
        ),
        ("result call 0 id 7 at 4", "4 - - - - - -"),
        ("error call 0 id 7 at 4", "4 - - - - - -"),
        ("leg-failed call 0 at 4", "4 - - - - - -"),
        ("alerted call 0 at 4", "4 - - - - - -"),
        ("answer call 0 at 4", "4 - - - - - -"),
        ("divert call 0 cfnr to 9 at 4", "4 - - - - - -"),
        ("far-end call 0 at 4", "4 - - - - - -"),
        ("message call 1 leg 2 alerting at 4", "4 - - - - - -"),
    ] {
        for count in [1, 4, 15] {
            let lines = join(&waiting(count), line);
            assert_eq!(last(&lines), answer, "{line}");
            let kept = record(&lines, 0);
            assert_eq!(kept.waits, record(&waiting(count), 0).waits, "{line}");
            assert_eq!((kept.cdr, kept.basic, kept.leg1), (1, 2, 101));
        }
    }
}

#[test]
fn two_calls_keep_what_waits_apart() {
    let mut panel = Panel::new();
    panel.run(&waiting(3));
    let other = waiting(15).replace("call 0", "call 1");
    panel.run(
        &other
            .replace(" at 1\n", " at 3\n")
            .replace(" at 2\n", " at 3\n"),
    );
    assert_eq!((panel.table[0].leg2(), panel.table[1].leg2()), (302, 314));
    let other = panel.table[1];
    panel.run("message call 0 leg 2 alerting at 4");
    assert_eq!(panel.table[1], other);
    let line = panel.line("message call 1 leg 2 alerting dli3-allowed at 4");
    assert_eq!(line, "0 1 3 314 - - X1");
}
