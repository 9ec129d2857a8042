//! Setting a forward from another panel: each sentence of the request.
#![forbid(unsafe_code)]

mod common;

use common::*;
use model::codes::{INTERROGATION, SORTS, WAIT};
use model::{Message, Pending, Station};

/// Each sort's request and how its answers begin.
const REQUESTS: [&str; SORTS] = [
    "activation request panel 7 cfu to 8",
    "deactivation request panel 7 cfb",
    "interrogation request panel 7 cfnr",
    "check request panel 8",
];
const SORT_WORDS: [&str; SORTS] = ["activation", "deactivation", "interrogation", "check"];

/// The line of a sort's result or error.
fn reply(sort: usize, role: &str, identifier: u16, time: u64) -> String {
    let number = match (sort, role) {
        (INTERROGATION, "result") => " to 207",
        _ => "",
    };
    format!(
        "{} {role} id {identifier}{number} at {time}",
        SORT_WORDS[sort]
    )
}

/// A panel that has asked each sort at its time; identifiers 65535, 1, 2, 3.
fn asked(times: [u64; SORTS]) -> Panel {
    let mut panel = Panel::new();
    for (words, time) in REQUESTS.iter().zip(times) {
        assert_eq!(panel.run(&format!("{words} at {time}")).code, 0);
    }
    panel
}

fn identifier(sort: usize) -> u16 {
    [65_535, 1, 2, 3][sort]
}

#[test]
fn our_requests_send_an_invoke_and_wait() {
    let mut panel = Panel::new();
    let invokes = [(1, 8, 7), (2, 0, 7), (3, 0, 7), (0, 0, 8)];
    for (sort, words) in REQUESTS.iter().enumerate() {
        let answer = panel.run(&format!("{words} at 5"));
        let (reason, destination, number) = invokes[sort];
        let letter = ['a', 'd', 'i', 'c'][sort];
        let sent = Message {
            reason,
            destination,
            number,
            identifier: identifier(sort),
            ..Message::plain(letter, 0)
        };
        assert_eq!(answer.messages, [sent]);
        let printed = format!("0 - - - {} - {letter}", identifier(sort));
        assert_eq!(answer.to_string(), printed);
        let pending = Pending {
            wait: WAIT,
            identifier: identifier(sort),
            start: 5,
        };
        assert_eq!(panel.station.remote.pending[sort], pending);
    }
    assert_eq!(panel.station.next_identifier, 4);
    assert_eq!(panel.station.last_time, 5);
}

#[test]
fn one_of_the_same_sort_pending_is_9_and_draws_none() {
    let mut panel = asked([1, 2, 3, 4]);
    let before = panel.station;
    for words in REQUESTS {
        assert_eq!(panel.line(&format!("{words} at 9")), "9 - - - - - -");
        assert_eq!(panel.station, before);
    }
    for (sort, first) in REQUESTS.iter().enumerate() {
        let mut panel = Panel::new();
        panel.run(&format!("{first} at 1"));
        for (other, words) in REQUESTS.iter().enumerate() {
            let code = panel.run(&format!("{words} at 1")).code;
            assert_eq!(code, if other == sort { 9 } else { 0 });
        }
    }
}

#[test]
fn a_result_or_error_ends_the_wait_and_prints_nothing() {
    for role in ["result", "error"] {
        for (sort, words) in REQUESTS.iter().enumerate() {
            let mut panel = asked([1; SORTS]);
            let mut left = panel.station;
            left.remote.pending[sort] = Pending::default();
            left.last_time = 2;
            let line = reply(sort, role, identifier(sort), 2);
            assert_eq!(panel.line(&line), "0 - - - - - -");
            assert_eq!(panel.station, left);
            assert_eq!(panel.line(&line), "11 - - - - - -");
            let again = panel.run(&format!("{words} at 3"));
            assert_eq!((again.code, again.identifier), (0, Some(4)));
        }
    }
}

#[test]
fn none_pending_is_11_and_another_identifier_6() {
    for role in ["result", "error"] {
        for sort in 0..SORTS {
            let mut fresh = Panel::new();
            for id in [0, 1, 65_535] {
                assert_eq!(fresh.run(&reply(sort, role, id, 2)).code, 11);
            }
            let mut panel = asked([1; SORTS]);
            for id in [0, 4, 65_534, identifier((sort + 1) % SORTS)] {
                assert_eq!(panel.run(&reply(sort, role, id, 2)).code, 6);
            }
        }
    }
}

#[test]
fn a_result_does_not_answer_a_call_nor_a_calls_one_of_these() {
    let mut panel = Panel::new();
    panel.run(REQUESTED);
    panel.run("activation request panel 7 cfu to 8 at 4");
    assert_eq!(panel.run("result call 0 id 1 at 5").code, 6);
    assert_eq!(panel.run("activation result id 65535 at 5").code, 6);
    assert_eq!(panel.run("activation result id 1 at 5").code, 0);
    assert_eq!(panel.run("result call 0 id 65535 at 5").code, 0);
}

#[test]
fn timers_end_at_their_length_and_not_before() {
    for (sort, length) in [30_000, 15_000, 15_000, 15_000].into_iter().enumerate() {
        let mut panel = Panel::new();
        panel.run(&format!("{} at 1000", REQUESTS[sort]));
        let early = format!("clock at {}", 1000 + length - 1);
        assert_eq!(panel.line(&early), "0 - - - - - -");
        assert!(panel.station.remote.pending[sort].waits());
        let due = format!("clock at {}", 1000 + length);
        assert_eq!(panel.line(&due), "0 - - - 65535 - -");
        assert_eq!(panel.station.remote.pending[sort], Pending::default());
        assert_eq!(panel.line(&due), "0 - - - - - -");
        // "expiry equal to a reject": a late answer meets none pending.
        let late = reply(sort, "result", 65_535, 1000 + length);
        assert_eq!(panel.run(&late).code, 11);
    }
}

#[test]
fn an_overdue_request_is_still_answered() {
    for sort in 0..SORTS {
        let mut panel = asked([1; SORTS]);
        let line = reply(sort, "result", identifier(sort), 500_000);
        assert_eq!(panel.run(&line).code, 0);
    }
}

#[test]
fn clocks_end_t1_by_call_then_t2_to_t5() {
    let mut panel = asked([1; SORTS]);
    for call in 0..3 {
        panel.run(&format!(
            "open incoming 9 at 20000\ndivert call {call} cfu to 3 at 20000"
        ));
    }
    let lines: Vec<String> = (0..8).map(|_| panel.line("clock at 40000")).collect();
    let expected = [
        "0 0 - - 4 - -",
        "0 1 - - 5 - -",
        "0 2 - - 6 - -",
        "0 - - - 65535 - -",
        "0 - - - 1 - -",
        "0 - - - 2 - -",
        "0 - - - 3 - -",
        "0 - - - - - -",
    ];
    assert_eq!(lines, expected);
}

#[test]
fn sixty_eight_clocks_leave_nothing_due() {
    let lines = model::vectors::sixty_eight();
    let printed = model::panel::print(&model::text::encode(&lines).unwrap());
    let ends = printed.lines().skip(137).take(69);
    let identifiers: Vec<&str> = ends.map(|line| line.split(' ').nth(5).unwrap()).collect();
    assert_eq!(identifiers[64..], ["16", "33", "50", "67", "-"]);
    assert!(identifiers[..68].iter().all(|&id| id != "-"));
}

#[test]
fn an_activation_is_stored_over_any_existing_one() {
    let mut panel = Panel::new();
    let first = "activation invoke panel 7 cfb id 9 to 8 at 1";
    assert_eq!(panel.line(first), "0 - - - 9 - r");
    assert_eq!(panel.station.remote.kept, [0, 8, 0]);
    let second = "activation invoke panel 6 cfb id 0 to 5 at 2";
    let answer = panel.run(second);
    assert_eq!(answer.to_string(), "0 - - - 0 - r");
    assert_eq!(answer.messages, [Message::echo('r', 0, 0)]);
    assert_eq!(panel.station.remote.kept, [0, 5, 0]);
    panel.run("activation invoke panel 6 cfu id 0 to 1 at 2");
    panel.run("activation invoke panel 6 cfnr id 0 to 2 at 2");
    assert_eq!(panel.station.remote.kept, [1, 5, 2]);
}

#[test]
fn not_enabled_an_activation_gets_an_error_and_is_not_stored() {
    let mut panel = Panel::new();
    panel.run("activation invoke panel 7 cfu id 9 to 8 at 1");
    panel.station.remote.enabled = 0;
    let line = "activation invoke panel 7 cfu id 65535 to 3 at 2";
    assert_eq!(panel.line(line), "0 - - - 65535 - e");
    assert_eq!(panel.station.remote.kept, [8, 0, 0]);
    assert_eq!(panel.station.last_time, 2);
    // The mark is the activation's alone.
    let asks = "interrogation invoke panel 1 cfu id 4 at 3";
    assert_eq!(panel.line(asks), "0 - - - 4 - r");
    let ends = "deactivation invoke panel 1 cfu id 4 at 3";
    assert_eq!(panel.line(ends), "0 - - - 4 - r");
    assert_eq!(
        panel.line("check invoke panel 1 id 4 at 3"),
        "0 - - - 4 - r"
    );
}

#[test]
fn deactivation_and_interrogation_get_an_error_when_none_stands() {
    let mut panel = Panel::new();
    panel.run("activation invoke panel 7 cfb id 9 to 8 at 1");
    for reason in ["cfu", "cfnr"] {
        for words in ["deactivation", "interrogation"] {
            let line = format!("{words} invoke panel 7 {reason} id 3 at 2");
            assert_eq!(panel.line(&line), "0 - - - 3 - e");
        }
    }
    let told = panel.run("interrogation invoke panel 4 cfb id 3 at 2");
    let result = Message {
        destination: 8,
        ..Message::echo('r', 0, 3)
    };
    assert_eq!((told.messages, told.number), (vec![result], None));
    let ended = panel.run("deactivation invoke panel 4 cfb id 3 at 2");
    assert_eq!(ended.messages, [Message::echo('r', 0, 3)]);
    assert_eq!(panel.station.remote.kept, [0, 0, 0]);
    let again = "deactivation invoke panel 4 cfb id 3 at 2";
    assert_eq!(panel.line(again), "0 - - - 3 - e");
    let asks = "interrogation invoke panel 4 cfb id 3 at 2";
    assert_eq!(panel.line(asks), "0 - - - 3 - e");
}

#[test]
fn a_check_gets_an_error_when_the_mark_forbids() {
    for (enabled, allowed, letter) in [(1, 1, 'r'), (0, 1, 'r'), (1, 0, 'e'), (0, 0, 'e')] {
        let mut panel = Panel::new();
        panel.station = Station::fresh(15, enabled, allowed).unwrap();
        let answer = panel.run("check invoke panel 7 id 12 at 1");
        assert_eq!(answer.messages, [Message::echo(letter, 0, 12)]);
    }
}

#[test]
fn a_kept_destination_diverts_no_call_and_sends_no_check() {
    let mut panel = Panel::new();
    let stored = panel.run("activation invoke panel 7 cfu id 9 to 8 at 1");
    assert_eq!(stored.messages.len(), 1);
    assert_eq!(panel.line("open incoming 9 at 2"), "0 0 - - - - -");
    assert_eq!(panel.line("alerted call 0 at 2"), "0 0 - - - - A1");
}
