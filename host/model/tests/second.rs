//! The second number: what a cfnr DLI1 opens anew, and what it does not.
#![forbid(unsafe_code)]

mod common;

use common::*;

/// A call that was diverted on no reply and shows the number 207; it rings.
const SHOWN: &str = "\
open outgoing 101 at 1
message call 0 leg 1 alerting at 2
reroute call 0 leg 1 cfnr with-number counter 1 id 7 to 207 at 3
message call 0 leg 2 alerting dli3-allowed at 4";

/// The second no-reply diversion, to 308: leg 2 is set up.
const AGAIN: &str = "reroute call 0 leg 1 cfnr with-number counter 2 id 8 to 308 at 5";

const ALLOWED: &str = "message call 0 leg 1 facility dli3-allowed at 8";
const NOTHING: &str = "0 0 - - - - -";

fn after(before: &str, line: &str) -> String {
    last(&join(before, line))
}

#[test]
fn two_no_reply_diversions_show_two_numbers() {
    assert_eq!(last(SHOWN), "0 0 3 207 - - X1");
    let again = join(SHOWN, AGAIN);
    assert_eq!(last(&again), "0 0 - - 8 2 R1S2");
    let second = join(&again, "message call 0 leg 2 alerting dli3-allowed at 6");
    assert_eq!(last(&second), "0 0 3 308 - - X1");
    let connect = "message call 0 leg 2 connect dli3-allowed number 77 at 6";
    assert_eq!(after(&again, connect), "0 0 3 77 - - X1");
    // Once for each: the next DLI3 shows nothing, a third cfnr DLI1 opens.
    assert_eq!(after(&second, ALLOWED), NOTHING);
    let third = join(&second, "dli1 call 0 cfnr with-number to 409 at 7");
    assert_eq!(last(&third), "0 0 3 - - - -");
    assert_eq!(after(&third, ALLOWED), "0 0 - 409 - - -");
}

#[test]
fn a_forbidden_dli3_hides_the_second_for_good() {
    let again = join(SHOWN, AGAIN);
    let forbidden = join(
        &again,
        "message call 0 leg 2 alerting dli3-forbidden number 9 at 6",
    );
    assert_eq!(last(&forbidden), "0 0 3 - - - X1");
    assert_eq!(after(&forbidden, ALLOWED), NOTHING);
    let third = join(&forbidden, "dli1 call 0 cfnr with-number to 409 at 7");
    assert_eq!(last(&third), "0 0 3 - - - -");
    assert_eq!(after(&third, ALLOWED), NOTHING);
    // One that was forbidden after the first number hides the second too.
    let early = "message call 0 leg 1 facility dli3-forbidden at 5";
    let taken = join(&join(SHOWN, early), AGAIN);
    let alerting = "message call 0 leg 2 alerting dli3-allowed at 6";
    assert_eq!(after(&taken, alerting), "0 0 3 - - - X1");
}

#[test]
fn a_stricter_option_between_hides_the_second() {
    for (option, notice) in [("without-number", "3"), ("", "-")] {
        let between = join(SHOWN, &format!("dli1 call 0 cfu {option} to 250 at 5"));
        let taken = join(&between, AGAIN);
        let alerting = "message call 0 leg 2 alerting dli3-allowed at 6";
        assert_eq!(after(&taken, alerting), format!("0 0 {notice} - - - X1"));
        // The same where the second cfnr DLI1 itself is the stricter one.
        let strict = join(SHOWN, &format!("dli1 call 0 cfnr {option} to 308 at 5"));
        assert_eq!(last(&strict), format!("0 0 {notice} - - - -"));
        assert_eq!(after(&strict, ALLOWED), NOTHING);
        // And later ones with number do not mend it.
        let wide = join(&strict, "dli1 call 0 cfnr with-number to 309 at 6");
        assert_eq!(after(&wide, ALLOWED), NOTHING);
    }
}

#[test]
fn a_cfnr_dli1_clears_the_shown_mark_whatever_its_option() {
    assert_eq!(record(SHOWN, 0).shown, 1);
    for (option, strictest) in [("", 0), ("without-number", 1), ("with-number", 2)] {
        let later = join(SHOWN, &format!("dli1 call 0 cfnr {option} to 308 at 5"));
        let kept = record(&later, 0);
        assert_eq!((kept.shown, kept.strictest), (0, strictest));
        assert_eq!((kept.forbidden, kept.nominated), (0, 308));
    }
}

#[test]
fn no_other_reason_opens_the_way() {
    for reason in ["unknown", "cfu", "cfb"] {
        let later = join(
            SHOWN,
            &format!("dli1 call 0 {reason} with-number to 308 at 5"),
        );
        assert_eq!(last(&later), NOTHING);
        assert_eq!(record(&later, 0).shown, 1);
        assert_eq!(after(&later, ALLOWED), NOTHING);
    }
    for reason in ["cfu", "cfb"] {
        let line = format!("reroute call 0 leg 1 {reason} with-number counter 2 id 8 to 308 at 5");
        let later = join(SHOWN, &line);
        assert_eq!(last(&later), "0 0 - - 8 2 R1X1S1");
        let alerting = "message call 0 leg 1 alerting dli3-allowed at 6";
        assert_eq!(after(&later, alerting), NOTHING);
    }
}

#[test]
fn an_invoke_that_waits_opens_nothing_before_its_dli1_reaches_the_cdo() {
    let waits = join(SHOWN, AGAIN);
    assert_eq!(record(&waits, 0).shown, 1);
    assert_eq!(after(&waits, ALLOWED), NOTHING);
    let alerting = "message call 0 leg 1 alerting dli3-allowed number 9 at 6";
    assert_eq!(after(&waits, alerting), NOTHING);
    // Dropped with leg 2, it never does.
    let failed = join(&waits, "message call 0 leg 2 release-complete at 6");
    assert_eq!(last(&failed), "0 0 - - - - F1");
    assert_eq!(after(&failed, ALLOWED), NOTHING);
    let connect = "message call 0 leg 1 connect dli3-allowed number 9 at 6";
    assert_eq!(after(&waits, connect), "0 0 - - - - X2");
    // Left alone by a release of leg 1, it does.
    let left = join(&waits, "message call 0 leg 1 release-complete at 6");
    assert_eq!(last(&left), "0 0 3 - - - -");
    assert_eq!(record(&left, 0).shown, 0);
    assert_eq!(after(&left, ALLOWED), "0 0 - 308 - - -");
}

#[test]
fn dli1_and_dli3_of_one_event_count_in_that_order() {
    let taken = join(
        &join(SHOWN, AGAIN),
        "message call 0 leg 2 alerting dli3-allowed at 6",
    );
    // The other order would show none now, and one at the next DLI3.
    assert_eq!(last(&taken), "0 0 3 308 - - X1");
    assert_eq!(record(&taken, 0).shown, 1);
    assert_eq!(after(&taken, ALLOWED), NOTHING);
}
