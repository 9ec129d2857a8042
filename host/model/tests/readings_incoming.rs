//! Readings of the rules for incoming calls.
#![forbid(unsafe_code)]

mod common;

use common::*;

const EARLY: &str = "open incoming 102 at 1\ndivert call 0 cfu to 300 at 2";
const EARLY_GRANT: &str = "\
open incoming 102 at 1
divert call 0 cfb to 300 at 2
result call 0 id 65535 at 3";

fn granted() -> String {
    join(REQUESTED, "result call 0 id 65535 at 4")
}

fn code(before: &str, line: &str) -> u8 {
    answer(&join(before, line)).code
}

#[test]
fn alerting_and_answering_are_11_with_an_early_request_or_grant() {
    for before in [EARLY, EARLY_GRANT] {
        assert_eq!(code(before, "alerted call 0 at 9"), 11);
        assert_eq!(code(before, "answer call 0 at 9"), 11);
    }
}

#[test]
fn answering_ends_an_open_no_reply_request_or_grant() {
    for before in [REQUESTED, &granted()] {
        let answered = join(before, "answer call 0 at 9");
        assert_eq!(last(&answered), "0 0 - - - - C1");
        let plain = join(RINGS, "answer call 0 at 9");
        assert_eq!(record(&answered, 0), record(&plain, 0));
    }
    let late = join(REQUESTED, "answer call 0 at 9");
    assert_eq!(code(&late, "result call 0 id 65535 at 9"), 10);
}

#[test]
fn a_second_alerting_is_10() {
    assert_eq!(code(RINGS, "alerted call 0 at 9"), 10);
    let active = join(RINGS, "answer call 0 at 9");
    assert_eq!(code(&active, "alerted call 0 at 9"), 10);
    assert_eq!(code(&active, "answer call 0 at 9"), 10);
}

#[test]
fn alerting_in_wait_is_plain_and_stays_in_wait() {
    let lines = "open incoming 9 diverted cfu counter 1 at 1\nalerted call 0 at 2";
    assert_eq!(last(lines), "0 0 - - - - A1");
    assert_eq!(record(lines, 0).cdf, 1);
    assert_eq!(last(&join(lines, "answer call 0 at 3")), "0 0 - - - - D1");
}

#[test]
fn the_reason_must_fit_the_basic_state() {
    let fresh = "open incoming 102 at 1";
    let active = join(RINGS, "answer call 0 at 3");
    let (early, late) = ([0, 10, 10], [10, 0, 10]);
    for (reason, expected) in [("cfu", early), ("cfb", early), ("cfnr", late)] {
        let line = format!("divert call 0 {reason} to 3 at 9");
        let codes = [fresh, RINGS, &active].map(|before| code(before, &line));
        assert_eq!(codes, expected, "{reason}");
    }
    assert_eq!(code(REQUESTED, "divert call 0 cfnr to 3 at 9"), 11);
    assert_eq!(code(&granted(), "divert call 0 cfnr to 3 at 9"), 11);
    // The reason fits no better for the open request.
    assert_eq!(code(REQUESTED, "divert call 0 cfu to 3 at 9"), 10);
}

#[test]
fn the_stored_counter_never_changes() {
    let lines = "open incoming 9 diverted cfu counter 3 at 1\ndivert call 0 cfu to 3 at 2";
    assert_eq!(answer(lines).counter, Some(4));
    assert_eq!(record(lines, 0).counter, 3);
    let again = join(
        lines,
        "error call 0 id 65535 at 3\ndivert call 0 cfu to 3 at 4",
    );
    assert_eq!(answer(&again).counter, Some(4));
}

#[test]
fn a_late_result_still_grants() {
    let late = join(REQUESTED, "result call 0 id 65535 at 99999");
    let kept = record(&late, 0);
    assert_eq!((kept.granted, kept.reason, kept.cds), (1, 3, 0));
    assert_eq!((kept.identifier, kept.start), (0, 0));
}

#[test]
fn a_no_reply_grant_is_cleared_by_a_failed_leg_and_may_divert_again() {
    let failed = join(&granted(), "leg-failed call 0 at 5");
    assert_eq!(last(&failed), "0 0 - - - - -");
    assert_eq!(record(&failed, 0), record(RINGS, 0));
    let again = join(&failed, "divert call 0 cfnr to 9 at 6");
    assert_eq!(last(&again), "0 0 - - 1 1 I1");
}

#[test]
fn a_failed_leg_needs_a_no_reply_grant() {
    for (before, expected) in [(RINGS, 11), (REQUESTED, 11), (EARLY, 10), (EARLY_GRANT, 10)] {
        assert_eq!(code(before, "leg-failed call 0 at 9"), expected);
    }
}

#[test]
fn an_early_grant_ends_with_the_call_only() {
    for (line, expected) in [("alerted", 11), ("answer", 11), ("leg-failed", 10)] {
        assert_eq!(code(EARLY_GRANT, &format!("{line} call 0 at 9")), expected);
    }
    assert_eq!(code(EARLY_GRANT, "error call 0 id 65535 at 9"), 11);
    for line in ["end call 0 at 9", "far-end call 0 at 9"] {
        assert!(record(&join(EARLY_GRANT, line), 0).is_free());
    }
}

#[test]
fn the_state_is_tested_before_the_identifier_and_the_limit() {
    assert_eq!(code(RINGS, "result call 0 id 4 at 9"), 11);
    assert_eq!(code(REQUESTED, "result call 0 id 4 at 9"), 6);
    assert_eq!(code(REQUESTED, "error call 0 id 4 at 9"), 6);
    let deepest = "open incoming 9 diverted cfu counter 15 at 1";
    assert_eq!(code(deepest, "divert call 0 cfnr to 3 at 9"), 10);
    assert_eq!(code(deepest, "divert call 0 cfu to 3 at 9"), 7);
}

#[test]
fn the_next_identifier_is_the_taken_one_plus_1_also_after_skips() {
    let mut panel = Panel::new();
    panel.run(REQUESTED);
    panel.run("open incoming 1 at 4\nopen incoming 2 at 4\ndivert call 1 cfu to 9 at 4");
    panel.station.next_identifier = 65_535;
    let sent = panel.run("divert call 2 cfu to 9 at 4");
    assert_eq!(sent.identifier, Some(2));
    assert_eq!(panel.station.next_identifier, 3);
}

#[test]
fn the_clock_ends_the_lowest_due_record_not_the_oldest() {
    let mut panel = Panel::new();
    panel.run("open incoming 1 at 1\nopen incoming 2 at 1");
    panel.run("divert call 1 cfu to 9 at 2\ndivert call 0 cfu to 9 at 3");
    assert_eq!(panel.line("clock at 10002"), "0 1 - - 65535 - -");
    panel.run("divert call 1 cfu to 9 at 10002");
    assert_eq!(panel.line("clock at 30000"), "0 0 - - 1 - -");
    assert_eq!(panel.line("clock at 30000"), "0 1 - - 2 - -");
    assert_eq!(panel.line("clock at 30000"), "0 - - - - - -");
}

#[test]
fn the_directions_of_the_kinds() {
    for line in [
        "alerted call 0 at 9",
        "answer call 0 at 9",
        "divert call 0 cfu to 3 at 9",
        "result call 0 id 1 at 9",
        "error call 0 id 1 at 9",
        "leg-failed call 0 at 9",
        "far-end call 0 at 9",
    ] {
        assert_eq!(code(DIVERT, line), 4, "{line}");
        assert_eq!(answer(line).code, 4, "{line}");
    }
}
