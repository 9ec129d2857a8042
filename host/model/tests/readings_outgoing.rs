//! Readings of the rules for outgoing calls.
#![forbid(unsafe_code)]

mod common;

use common::*;

const ACTIVE: &str = "open outgoing 101 at 1\nmessage call 0 leg 1 connect at 2";
const RINGING: &str = "open outgoing 101 at 1\nmessage call 0 leg 1 alerting at 2";

fn after(before: &str, line: &str) -> String {
    last(&join(before, line))
}

#[test]
fn a_reroute_on_a_missing_leg_2_is_refused_also_in_active() {
    for (before, code) in [("open outgoing 101 at 1", 10), (RINGING, 11), (ACTIVE, 10)] {
        let line = "reroute call 0 leg 2 cfu counter 1 id 4 to 3 at 9";
        assert_eq!(after(before, line), format!("{code} - - - - - -"));
    }
}

#[test]
fn a_reroute_gets_an_error_in_invoked_in_active_and_out_of_turn() {
    // Cfu and cfb on leg 2 are taken in Invoked: see waiting.rs.
    for (leg, reason) in [(1, "cfu"), (1, "cfb"), (1, "cfnr"), (2, "cfnr")] {
        let line = format!("reroute call 0 leg {leg} {reason} counter 1 id 4 to 3 at 9");
        assert_eq!(after(INVOKED, &line), format!("0 0 - - 4 - E{leg}"));
        assert_eq!(record(&join(INVOKED, &line), 0), record(INVOKED, 0));
    }
    let early = "reroute call 0 leg 1 cfu counter 1 id 0 to 3 at 9";
    let no_reply = "reroute call 0 leg 1 cfnr counter 1 id 0 to 3 at 9";
    assert_eq!(after(ACTIVE, early), "0 0 - - 0 - E1");
    assert_eq!(after(ACTIVE, no_reply), "0 0 - - 0 - E1");
    assert_eq!(after("open outgoing 101 at 1", no_reply), "0 0 - - 0 - E1");
}

#[test]
fn early_reasons_in_delivered_are_carried_out() {
    for (reason, notice) in [("cfu", 1), ("cfb", 2)] {
        let line = format!("reroute call 0 leg 1 {reason} with-number counter 1 id 4 to 3 at 9");
        assert_eq!(after(RINGING, &line), format!("0 0 {notice} - 4 1 R1X1S1"));
        let kept = record(&join(RINGING, &line), 0);
        assert_eq!(
            (kept.basic, kept.leg1, kept.nominated, kept.cdo),
            (1, 3, 3, 1)
        );
    }
}

#[test]
fn alerting_in_delivered_is_done_and_its_dli3_counts() {
    let rings = join(DIVERT, "message call 0 leg 1 alerting at 3");
    let again = "message call 0 leg 1 alerting dli3-allowed number 8 at 4";
    assert_eq!(after(&rings, again), "0 0 - 8 - - -");
    let told = join(INVOKED, "dli1 call 0 cfu with-number to 9 at 4");
    assert_eq!(after(&told, again), "0 0 - 8 - - -");
    assert_eq!(record(&join(&told, again), 0).cdr, 1);
}

#[test]
fn dli1_and_facility_on_leg_1_are_taken_in_invoked() {
    let told = join(INVOKED, "dli1 call 0 cfb with-number to 9 at 4");
    assert_eq!(last(&told), "0 0 2 - - - -");
    let facility = "message call 0 leg 1 facility dli3-allowed at 5";
    assert_eq!(after(&told, facility), "0 0 - 9 - - -");
    assert_eq!(after(INVOKED, facility), "11 - - - - - -");
    let on_leg_2 = "message call 0 leg 2 facility dli3-allowed at 5";
    assert_eq!(after(&told, on_leg_2), "10 - - - - - -");
}

#[test]
fn a_dli3_in_cdo_idle_leaves_no_trace() {
    let passed = join(
        "open outgoing 1 at 1",
        "message call 0 leg 1 alerting dli3-forbidden number 4 at 2",
    );
    assert_eq!(record(&passed, 0).forbidden, 0);
    let told = join(&passed, "dli1 call 0 cfu with-number to 9 at 3");
    let shows = "message call 0 leg 1 alerting dli3-allowed at 4";
    assert_eq!(after(&told, shows), "0 0 - 9 - - -");
}

#[test]
fn options_and_numbers_count_when_the_dli1_reaches_the_cdo() {
    // A waiting option 0 does not yet hide a number, nor nominate one.
    let waiting = "open outgoing 1 at 1
        dli1 call 0 cfu with-number to 9 at 2
        message call 0 leg 1 alerting at 3
        reroute call 0 leg 1 cfnr counter 1 id 4 to 5 at 4";
    let facility = "message call 0 leg 1 facility dli3-allowed at 5";
    assert_eq!(after(waiting, facility), "0 0 - 9 - - -");
    let taken = join(waiting, "message call 0 leg 2 alerting dli3-allowed at 5");
    assert_eq!(last(&taken), "0 0 - - - - X1");
    let kept = record(&taken, 0);
    assert_eq!((kept.strictest, kept.nominated, kept.leg1), (0, 5, 5));
}

#[test]
fn connect_on_leg_1_in_invoked_drops_leg_2_without_a_dli1() {
    let connect = "message call 0 leg 1 connect dli3-allowed number 8 at 5";
    assert_eq!(after(INVOKED, connect), "0 0 - - - - X2");
    let kept = record(&join(INVOKED, connect), 0);
    assert_eq!(
        (kept.basic, kept.seen, kept.leg1, kept.leg2()),
        (3, 0, 101, 0)
    );
    let told = join(INVOKED, "dli1 call 0 cfb with-number to 9 at 4");
    assert_eq!(after(&told, connect), "0 0 - 8 - - X2");
}

#[test]
fn release_on_leg_1_in_invoked_leaves_leg_2_alone() {
    let release = "message call 0 leg 1 release-complete at 5";
    assert_eq!(after(INVOKED, release), "0 0 3 - - - -");
    let kept = record(&join(INVOKED, release), 0);
    assert_eq!((kept.basic, kept.cdr, kept.cdo), (1, 0, 1));
    assert_eq!((kept.leg1, kept.leg2(), kept.nominated), (207, 0, 207));
}

#[test]
fn release_on_leg_2_reports_the_failed_leg() {
    let release = "message call 0 leg 2 release-complete at 5";
    assert_eq!(after(INVOKED, release), "0 0 - - - - F1");
    assert_eq!(record(&join(INVOKED, release), 0), record(RINGING, 0));
    assert_eq!(after(RINGING, release), "11 - - - - - -");
}

#[test]
fn connect_on_leg_2_takes_over() {
    let connect = "message call 0 leg 2 connect dli3-allowed at 5";
    assert_eq!(after(INVOKED, connect), "0 0 3 207 - - X1");
    let kept = record(&join(INVOKED, connect), 0);
    assert_eq!((kept.basic, kept.cdo, kept.cdr, kept.shown), (3, 0, 0, 1));
}

#[test]
fn own_end_releases_both_legs_in_invoked() {
    assert_eq!(after(INVOKED, "end call 0 at 9"), "0 0 - - - - X1X2");
    assert_eq!(after(RINGING, "end call 0 at 9"), "0 0 - - - - X1");
}

#[test]
fn the_first_dli1_is_once_in_a_records_life() {
    let later = join(DIVERT, "dli1 call 0 cfb with-number to 9 at 3");
    assert_eq!(last(&later), "0 0 - - - - -");
    let cfnr = join(&later, "dli1 call 0 cfnr with-number to 9 at 4");
    assert_eq!(last(&cfnr), "0 0 3 - - - -");
    let strict = join(DIVERT, "dli1 call 0 cfnr to 9 at 3");
    assert_eq!(last(&strict), "0 0 - - - - -");
    let reopened = join(&later, "end call 0 at 4\nopen outgoing 1 at 5");
    let first = "dli1 call 0 cfb with-number to 9 at 6";
    assert_eq!(after(&reopened, first), "0 0 2 - - - -");
}

#[test]
fn the_first_dli1_sets_the_strictest_option() {
    assert_eq!(record(DIVERT, 0).strictest, 2);
    let later = join(DIVERT, "dli1 call 0 cfb without-number to 9 at 3");
    assert_eq!(record(&later, 0).strictest, 1);
    let widest = join(&later, "dli1 call 0 cfb with-number to 9 at 4");
    assert_eq!(record(&widest, 0).strictest, 1);
}

#[test]
fn an_absent_number_falls_back_to_the_last_nominated_never_to_the_party() {
    let told = join(DIVERT, "dli1 call 0 cfb with-number to 9 at 3");
    let shows = "message call 0 leg 1 facility dli3-allowed at 4";
    assert_eq!(after(&told, shows), "0 0 - 9 - - -");
    assert_eq!(record(&told, 0).leg1, 101);
}

#[test]
fn a_number_is_shown_once_and_never_after_a_forbidden_dli3() {
    let shown = join(
        DIVERT,
        "message call 0 leg 1 facility dli3-allowed number 4 at 3",
    );
    let again = "message call 0 leg 1 connect dli3-allowed number 5 at 4";
    assert_eq!(last(&shown), "0 0 - 4 - - -");
    assert_eq!(after(&shown, again), "0 0 - - - - -");
    let forbidden = join(
        DIVERT,
        "message call 0 leg 1 facility dli3-forbidden number 4 at 3",
    );
    assert_eq!(last(&forbidden), "0 0 - - - - -");
    assert_eq!(after(&forbidden, again), "0 0 - - - - -");
}

#[test]
fn active_takes_a_release_only() {
    let lines = "open outgoing 1 at 1
        dli1 call 0 cfu with-number to 2 at 2
        message call 0 leg 1 connect at 3";
    for line in [
        "dli1 call 0 cfu with-number to 2 at 4",
        "message call 0 leg 1 facility dli3-allowed at 4",
        "message call 0 leg 1 alerting at 4",
        "message call 0 leg 1 connect at 4",
    ] {
        assert_eq!(after(lines, line), "10 - - - - - -", "{line}");
    }
    let release = "message call 0 leg 1 release-complete at 4";
    assert_eq!(after(lines, release), "0 0 - - - - -");
}

#[test]
fn the_directions_of_the_kinds() {
    for line in [
        "reroute call 0 leg 1 cfu counter 1 id 4 to 3 at 9",
        "dli1 call 0 cfu to 3 at 9",
        "message call 0 leg 1 alerting at 9",
    ] {
        assert_eq!(after(RINGS, line), "4 - - - - - -");
        assert_eq!(last(line), "4 - - - - - -");
    }
}
