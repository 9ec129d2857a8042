//! Readings of what an answer and its messages hold, and of the printout.
#![forbid(unsafe_code)]

mod common;

use common::*;
use model::{panel, text, Message};

#[test]
fn none_is_not_0() {
    let lines = "open outgoing 1 at 1\ndli1 call 0 unknown without-number to 2 at 2";
    assert_eq!(last(lines), "0 0 0 - - - -");
}

#[test]
fn the_call_is_named_also_when_its_record_is_free_afterwards() {
    let released = join(DIVERT, "message call 0 leg 1 release-complete at 3");
    assert_eq!(last(&released), "0 0 - - - - -");
    assert!(record(&released, 0).is_free());
    assert_eq!(last(&join(RINGS, "far-end call 0 at 3")), "0 0 - - - - -");
    assert_eq!(last(&join(RINGS, "end call 0 at 3")), "0 0 - - - - X1");
}

#[test]
fn an_ended_request_gives_no_identifier_but_at_a_clock() {
    for (end, line) in [
        ("result call 0 id 65535 at 4", "0 0 - - - - -"),
        ("error call 0 id 65535 at 4", "0 0 - - - - -"),
        ("answer call 0 at 4", "0 0 - - - - C1"),
        ("end call 0 at 4", "0 0 - - - - X1"),
        ("far-end call 0 at 4", "0 0 - - - - -"),
        ("clock at 10003", "0 0 - - 65535 - -"),
    ] {
        assert_eq!(last(&join(REQUESTED, end)), line, "{end}");
    }
}

#[test]
fn the_counter_stands_with_invoke_and_setup_only() {
    assert_eq!(last(REQUESTED), "0 0 - - 65535 1 I1");
    assert_eq!(last(INVOKED), "0 0 - - 7 2 R1S2");
    let error = "open outgoing 1 at 1\nreroute call 0 leg 1 cfnr counter 4 id 9 to 2 at 2";
    assert_eq!(last(error), "0 0 - - 9 - E1");
    let open = "open incoming 1 diverted cfu counter 4 at 1";
    assert_eq!(last(open), "0 0 - - - - -");
}

#[test]
fn connect_with_dli3_holds_flag_and_own_number() {
    let open = "open incoming 102 diverted cfu counter 1 at 1";
    let plain = Message::plain('D', 1);
    let allowed = answer(&join(open, "answer call 0 allowed at 2"));
    assert_eq!(allowed.to_string(), "0 0 - - - - D1");
    let with_number = Message {
        flag: 1,
        number: 102,
        ..plain
    };
    assert_eq!(allowed.messages, [with_number]);
    let not_allowed = answer(&join(open, "answer call 0 at 2"));
    assert_eq!(not_allowed.messages, [plain]);
}

#[test]
fn invoke_holds_all_its_arguments() {
    let invoke = answer("open incoming 102 at 1\ndivert call 0 cfb without-number to 300 at 2");
    let expected = Message {
        reason: 2,
        option: 1,
        counter: 1,
        identifier: 65_535,
        destination: 300,
        diverting: 102,
        ..Message::plain('I', 1)
    };
    assert_eq!(invoke.messages, [expected]);
}

#[test]
fn the_original_called_number_sent() {
    let sent = |open: &str| {
        let lines = format!("open incoming 102 {open} at 1\ndivert call 0 cfu to 300 at 2");
        let message = answer(&lines).messages[0];
        (message.counter, message.original)
    };
    assert_eq!(sent(""), (1, 0));
    assert_eq!(sent("diverted cfu counter 1 from 5 original 6"), (2, 6));
    assert_eq!(sent("diverted cfu counter 1 from 5"), (2, 5));
    assert_eq!(sent("diverted cfu counter 3 original 6"), (4, 6));
    assert_eq!(sent("diverted cfu counter 3"), (4, 0));
}

#[test]
fn setup_holds_the_leg_1_party_before_the_event() {
    let line = "reroute call 0 leg 1 cfb without-number counter 3 id 8 to 207 original 55 at 2";
    let lines = join("open outgoing 101 at 1", line);
    let setup = Message {
        reason: 2,
        counter: 3,
        destination: 207,
        diverting: 101,
        original: 55,
        ..Message::plain('S', 1)
    };
    let expected = [Message::echo('R', 1, 8), Message::plain('X', 1), setup];
    assert_eq!(answer(&lines).messages, expected);
    assert_eq!(record(&lines, 0).leg1, 207);
}

#[test]
fn a_no_reply_notice_comes_when_leg_2_takes_over() {
    assert_eq!(answer(INVOKED).notice, None);
    let alerting = "message call 0 leg 2 alerting dli3-allowed number 208 at 4";
    assert_eq!(last(&join(INVOKED, alerting)), "0 0 3 208 - - X1");
}

#[test]
fn an_error_and_an_idle_clock_are_done_and_move_the_time() {
    let mut panel = Panel::new();
    panel.run("open outgoing 1 at 1\nreroute call 0 leg 1 cfnr counter 4 id 9 to 2 at 20");
    assert_eq!(panel.station.last_time, 20);
    assert_eq!(panel.run("clock at 19").code, 2);
    panel.run("clock at 30");
    assert_eq!(panel.station.last_time, 30);
}

#[test]
fn a_refused_line_is_otherwise_empty() {
    let bytes = text::encode("clock at 5\nclock at 4\nalerted call 0 at 6").unwrap();
    let lines = "0 0 - - - - - -\n1 2 - - - - - -\n2 4 - - - - - -\n";
    assert_eq!(panel::print(&bytes), lines);
}

#[test]
fn a_cut_last_record_is_not_run() {
    let mut bytes = text::encode("clock at 5\nclock at 6").unwrap();
    bytes.pop();
    assert_eq!(panel::print(&bytes), "0 0 - - - - - -\ncut 23\n");
    assert_eq!(panel::print(&bytes[..1]), "cut 1\n");
    assert_eq!(panel::print(&[]), "");
}
