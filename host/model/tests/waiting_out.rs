//! Every way out of Invoked with one to fifteen waiting: what is handed over
//! and what is dropped.
#![forbid(unsafe_code)]

mod common;

use common::*;
use model::{Record, Waits};

const COUNTS: [usize; 5] = [1, 2, 7, 14, 15];
const ALERTS: &str = "message call 0 leg 2 alerting dli3-allowed at 6";
const FACILITY: &str = "message call 0 leg 1 facility dli3-allowed at 7";

fn after(before: &str, line: &str) -> String {
    last(&join(before, line))
}

/// The record after a way out, which must leave nothing waiting.
fn left(before: &str, line: &str) -> Record {
    let kept = record(&join(before, line), 0);
    assert_eq!((kept.cdr, kept.waits), (0, Waits::default()));
    assert_eq!(kept.leg2(), 0);
    kept
}

/// INVOKED, behind some lines, with these options waiting, cfu after cfnr.
fn with_options(before: &str, options: &[&str]) -> String {
    let mut lines = format!("open outgoing 101 at 1\n{before}");
    lines += "\nmessage call 0 leg 1 alerting at 2";
    for (at, option) in options.iter().enumerate() {
        let on = ["leg 1 cfnr", "leg 2 cfu"][at.min(1)];
        lines += &format!(
            "\nreroute call 0 {on} {option} counter 1 id 1 to {} at 3",
            at + 200
        );
    }
    lines
}

#[test]
fn leg_2_alerts() {
    for count in COUNTS {
        let (before, number) = (waiting(count), last_waiting(count));
        assert_eq!(after(&before, ALERTS), format!("0 0 3 {number} - - X1"));
        let kept = left(&before, ALERTS);
        assert_eq!((kept.basic, kept.cdo, kept.leg1), (2, 1, number));
        assert_eq!((kept.seen, kept.strictest, kept.forbidden), (1, 2, 0));
        assert_eq!((kept.shown, kept.nominated), (1, number));
    }
}

#[test]
fn leg_2_connects() {
    for count in COUNTS {
        let (before, number) = (waiting(count), last_waiting(count));
        let connect = "message call 0 leg 2 connect dli3-allowed at 6";
        assert_eq!(after(&before, connect), format!("0 0 3 {number} - - X1"));
        let kept = left(&before, connect);
        assert_eq!((kept.basic, kept.cdo, kept.leg1), (3, 0, number));
        assert_eq!((kept.seen, kept.shown, kept.nominated), (1, 1, number));
    }
}

#[test]
fn leg_1_is_released() {
    for count in COUNTS {
        let (before, number) = (waiting(count), last_waiting(count));
        let release = "message call 0 leg 1 release-complete at 6";
        assert_eq!(after(&before, release), "0 0 3 - - - -");
        let kept = left(&before, release);
        assert_eq!((kept.basic, kept.cdo, kept.leg1), (1, 1, number));
        assert_eq!((kept.seen, kept.shown, kept.nominated), (1, 0, number));
        let alone = join(&before, release);
        assert_eq!(after(&alone, FACILITY), format!("0 0 - {number} - - -"));
        // Leg 2 is leg 1 now: its release frees the record.
        assert_eq!(record(&join(&alone, release), 0), Record::default());
    }
}

#[test]
fn leg_2_is_released() {
    let ringing = "open outgoing 101 at 1\nmessage call 0 leg 1 alerting at 2";
    for count in COUNTS {
        let release = "message call 0 leg 2 release-complete at 6";
        assert_eq!(after(&waiting(count), release), "0 0 - - - - F1");
        assert_eq!(left(&waiting(count), release), record(ringing, 0));
    }
}

#[test]
fn leg_1_connects() {
    let connected = "open outgoing 101 at 1\nmessage call 0 leg 1 connect at 2";
    for count in COUNTS {
        let connect = "message call 0 leg 1 connect dli3-allowed number 8 at 6";
        assert_eq!(after(&waiting(count), connect), "0 0 - - - - X2");
        assert_eq!(left(&waiting(count), connect), record(connected, 0));
    }
}

#[test]
fn the_call_ends() {
    for count in COUNTS {
        let end = "end call 0 at 6";
        assert_eq!(after(&waiting(count), end), "0 0 - - - - X1X2");
        assert_eq!(left(&waiting(count), end), Record::default());
        // The next life of the record has no part in it.
        let next = join(
            &join(&waiting(count), end),
            &DIVERT.replace(" at ", " at 9"),
        );
        assert_eq!(
            after(&next, &FACILITY.replace("at 7", "at 99")),
            "0 0 - 207 - - -"
        );
    }
}

#[test]
fn all_are_handed_over_in_order_before_the_dli3() {
    let (n, w, s) = ("with-number", "without-number", "");
    // Options in the order of the waits, notice and number of the hand-over.
    for (options, notice, number) in [
        (vec![n, n, n], "3", "202"),
        (vec![w, n, n], "3", "-"),
        (vec![n, w, n], "3", "-"),
        (vec![n, n, w], "3", "-"),
        // The notice is the first one's, told before a later one forbids it.
        (vec![n, n, s], "3", "-"),
        (vec![n, s, n], "3", "-"),
        (vec![s, n, n], "-", "-"),
    ] {
        let before = with_options("", &options);
        let line = format!("0 0 {notice} {number} - - X1");
        assert_eq!(after(&before, ALERTS), line, "{options:?}");
        assert_eq!(after(&before, &ALERTS.replace("alerting", "connect")), line);
        let alone = join(&before, "message call 0 leg 1 release-complete at 6");
        assert_eq!(last(&alone), format!("0 0 {notice} - - - -"));
        assert_eq!(after(&alone, FACILITY), format!("0 0 - {number} - - -"));
        let strictest = options
            .iter()
            .map(|&o| [s, w, n].iter().position(|&x| x == o));
        let kept = left(&before, ALERTS);
        let strictest = strictest.min().flatten().map(|at| at as u8);
        assert_eq!(Some(kept.strictest), strictest);
        assert_eq!((kept.nominated, kept.leg1), (202, 202));
    }
}

#[test]
fn the_first_handed_over_is_the_cfnr_one() {
    // In another order the first of the call would be told as cfu, 1.
    let release = "message call 0 leg 1 release-complete at 6";
    let before = with_options("", &["with-number"; 15]);
    assert_eq!(after(&before, release), "0 0 3 - - - -");
    // Of a call with a history it alone is told again, and opens the way.
    let shown = "dli1 call 0 cfb with-number to 9 at 1
        message call 0 leg 1 facility dli3-allowed at 1";
    let again = with_options(shown, &["with-number"; 15]);
    assert_eq!(record(&again, 0).shown, 1);
    assert_eq!(after(&again, ALERTS), "0 0 3 214 - - X1");
    let strict = with_options("dli1 call 0 cfb to 9 at 1", &["with-number"; 15]);
    assert_eq!(after(&strict, ALERTS), "0 0 - - - - X1");
}

#[test]
fn one_dli3_behind_them() {
    let named = "message call 0 leg 2 alerting dli3-allowed number 5 at 6";
    assert_eq!(after(&waiting(15), named), "0 0 3 5 - - X1");
    let forbidden = "message call 0 leg 2 alerting dli3-forbidden number 5 at 6";
    assert_eq!(after(&waiting(15), forbidden), "0 0 3 - - - X1");
    assert_eq!(
        after(&join(&waiting(15), forbidden), FACILITY),
        "0 0 - - - - -"
    );
    let without = "message call 0 leg 2 alerting at 6";
    assert_eq!(after(&waiting(15), without), "0 0 3 - - - X1");
    assert_eq!(
        after(&join(&waiting(15), without), FACILITY),
        "0 0 - 314 - - -"
    );
    assert_eq!(
        after(&join(&waiting(15), ALERTS), FACILITY),
        "0 0 - - - - -"
    );
}

#[test]
fn options_count_at_hand_over_and_not_before() {
    let told = "dli1 call 0 cfu with-number to 9 at 1";
    let before = with_options(told, &["with-number", "", "without-number"]);
    // Neither hidden by what waits, nor nominated by it.
    assert_eq!(after(&before, FACILITY), "0 0 - 9 - - -");
    let alerting = "message call 0 leg 1 alerting dli3-allowed at 4";
    assert_eq!(after(&before, alerting), "0 0 - 9 - - -");
    let handed = join(&join(&before, alerting), ALERTS);
    assert_eq!(last(&handed), "0 0 3 - - - X1");
    assert_eq!(after(&handed, FACILITY), "0 0 - - - - -");
}

#[test]
fn kind_13_meanwhile_goes_straight_to_the_cdo() {
    let before = with_options("", &["with-number"; 4]);
    let told = join(&before, "dli1 call 0 cfb with-number to 9 at 4");
    assert_eq!(last(&told), "0 0 2 - - - -");
    assert_eq!(
        after(&told, &FACILITY.replace("at 7", "at 5")),
        "0 0 - 9 - - -"
    );
    assert_eq!(after(&told, ALERTS), "0 0 3 203 - - X1");
    for (option, notice) in [("without-number", "3"), ("", "-")] {
        let strict = join(&before, &format!("dli1 call 0 cfb {option} to 9 at 4"));
        assert_eq!(after(&strict, ALERTS), format!("0 0 {notice} - - - X1"));
    }
}

#[test]
fn dropped_ones_never_count() {
    let strict = with_options("", &["", "", "without-number"]);
    let dropped = join(&strict, "message call 0 leg 2 release-complete at 4");
    assert_eq!(record(&dropped, 0).seen, 0);
    let again = "reroute call 0 leg 1 cfnr with-number counter 1 id 1 to 207 at 5
        reroute call 0 leg 2 cfb with-number counter 2 id 2 to 308 at 5";
    assert_eq!(after(&join(&dropped, again), ALERTS), "0 0 3 308 - - X1");
    // Nor where the call has a history, also as leg 1 connects.
    let told = "dli1 call 0 cfu with-number to 9 at 1";
    let strict = with_options(told, &["", "", "without-number"]);
    let dropped = join(&strict, "message call 0 leg 2 release-complete at 4");
    assert_eq!(after(&dropped, FACILITY), "0 0 - 9 - - -");
    let connect = "message call 0 leg 1 connect dli3-allowed at 5";
    assert_eq!(after(&strict, connect), "0 0 - 9 - - X2");
    assert_eq!(left(&strict, connect).strictest, 2);
}

#[test]
fn after_a_hand_over_the_next_no_reply_begins_anew() {
    let handed = join(&waiting(15), ALERTS);
    let again = "reroute call 0 leg 1 cfnr with-number counter 1 id 1 to 400 at 6
        reroute call 0 leg 2 cfu with-number counter 2 id 2 to 401 at 6";
    let before = join(&handed, again);
    let kept = record(&before, 0);
    assert_eq!((kept.leg1, kept.leg2(), kept.waits.count), (314, 401, 1));
    assert_eq!(after(&before, ALERTS), "0 0 3 401 - - X1");
}
