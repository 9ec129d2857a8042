//! The page's own cases: the nine lines, its edges and its wrong turns.
#![forbid(unsafe_code)]

mod common;

use common::*;
use model::{panel, sound, step, text, vectors, Record, Station};

#[test]
fn nine_lines() {
    let expected = "\
0 0 0 - - - - -
1 0 0 1 - 9 1 R1X1S1
2 0 0 - 207 - - -
3 0 1 - - - - -
4 0 1 - - 65535 1 I1
5 0 - - - - - -
6 0 1 - - 65535 - -
7 0 1 - - 1 1 I1
8 6 - - - - - -
";
    let bytes = text::encode(vectors::NINE).unwrap();
    assert_eq!(panel::print(&bytes), expected);
}

#[test]
fn counter_14_diverts_with_15() {
    let lines = "open incoming 9 diverted cfu counter 14 at 1\ndivert call 0 cfu to 3 at 2";
    assert_eq!(last(lines), "0 0 - - 65535 15 I1");
}

#[test]
fn counter_15_is_7() {
    let lines = "open incoming 9 diverted cfu counter 15 at 1\ndivert call 0 cfu to 3 at 2";
    assert_eq!(last(lines), "7 - - - - - -");
}

#[test]
fn table_lengths() {
    for (length, code) in [(0, 1), (1, 0), (64, 0), (65, 1), (66, 1)] {
        let mut panel = Panel::of(length, 15);
        assert_eq!(panel.run("clock at 1").code, code, "{length} records");
    }
}

#[test]
fn open_on_a_full_table_is_8_and_an_ended_call_makes_room() {
    let mut panel = Panel::new();
    for call in 0..64 {
        let opened = panel.run("open incoming 9 at 1");
        assert_eq!(opened.call, Some(call));
    }
    for open in [
        "open outgoing 9 at 1",
        "open incoming 9 at 1",
        "open incoming 9 diverted cfb counter 1 at 1",
    ] {
        assert_eq!(panel.line(open), "8 - - - - - -");
    }
    assert_eq!(panel.line("end call 37 at 1"), "0 37 - - - - X1");
    assert_eq!(panel.line("open outgoing 9 at 1"), "0 37 - - - - -");
}

#[test]
fn flag_3_is_3() {
    let mut panel = Panel::new();
    panel.run(DIVERT);
    let mut message = event("message call 0 leg 1 connect dli3-forbidden at 3");
    message.flag = 3;
    assert_eq!(panel.take(&message).code, 3);
}

#[test]
fn option_1_then_an_allowed_dli3_shows_none() {
    let lines = "open outgoing 1 at 1
        dli1 call 0 cfu without-number to 2 at 2
        message call 0 leg 1 alerting dli3-allowed number 5 at 3";
    assert_eq!(last(lines), "0 0 - - - - -");
}

#[test]
fn an_answer_is_not_matched_by_identifier_alone() {
    let lines = "open incoming 1 at 1
        open incoming 2 at 2
        divert call 0 cfu to 9 at 3
        divert call 1 cfu to 9 at 4
        result call 0 id 1 at 5";
    assert_eq!(last(lines), "6 - - - - - -");
}

#[test]
fn an_identifier_still_open_after_the_wrap_is_passed_over() {
    let mut panel = Panel::of(3, 15);
    panel.run("open incoming 1 at 1\nopen incoming 2 at 1\nopen incoming 3 at 1");
    assert_eq!(
        panel.run("divert call 0 cfu to 9 at 1").identifier,
        Some(65_535)
    );
    assert_eq!(panel.run("divert call 2 cfu to 9 at 1").identifier, Some(1));
    for id in 2..=65_534 {
        assert_eq!(
            panel.run("divert call 1 cfu to 9 at 1").identifier,
            Some(id)
        );
        panel.run(&format!("error call 1 id {id} at 1"));
    }
    assert_eq!(panel.station.next_identifier, 65_535);
    assert_eq!(panel.run("divert call 1 cfu to 9 at 1").identifier, Some(2));
    assert_eq!(panel.station.next_identifier, 3);
}

#[test]
fn a_no_reply_invoke_keeps_leg_1() {
    assert_eq!(last(INVOKED), "0 0 - - 7 2 R1S2");
    assert_eq!(record(INVOKED, 0).leg1, 101);
}

#[test]
fn the_last_option_alone_does_not_decide() {
    let lines = "open outgoing 1 at 1
        dli1 call 0 cfu to 2 at 2
        dli1 call 0 cfnr with-number to 3 at 3";
    assert_eq!(last(lines), "0 0 - - - - -");
    let shows = join(lines, "message call 0 leg 1 alerting dli3-allowed at 4");
    assert_eq!(last(&shows), "0 0 - - - - -");
}

#[test]
fn a_fresh_station() {
    for limit in [0, 16, 255] {
        assert_eq!(Station::fresh(limit, 1, 1), Err(3));
    }
    for limit in 1..=15 {
        let station = Station::fresh(limit, 1, 1).unwrap();
        let fresh = (station.last_time, station.next_identifier, station.limit);
        assert_eq!(fresh, (0, 65_535, limit));
    }
    assert_eq!(Ok(Station::short()), Station::fresh(5, 1, 1));
}

#[test]
fn the_panel_names_15_itself() {
    assert_eq!(Ok(panel::start().1), Station::fresh(15, 1, 1));
}

#[test]
fn sixty_four_clocks_leave_nothing_due() {
    let mut panel = Panel::new();
    for call in 0..64 {
        panel.run(&format!(
            "open incoming 9 at 1\ndivert call {call} cfb to 3 at 1"
        ));
    }
    for call in 0..64 {
        let ended = panel.run("clock at 10001");
        let identifier = if call == 0 { 65_535 } else { call };
        assert_eq!(
            (ended.call, ended.identifier),
            (Some(call as u8), Some(identifier))
        );
    }
    assert_eq!(panel.line("clock at 10001"), "0 - - - - - -");
}

#[test]
fn t1_is_due_at_ten_thousand() {
    let early = join(REQUESTED, "clock at 10002");
    assert_eq!(last(&early), "0 - - - - - -");
    let due = join(REQUESTED, "clock at 10003");
    assert_eq!(last(&due), "0 0 - - 65535 - -");
    assert_eq!(record(&due, 0), record(RINGS, 0));
}

#[test]
fn the_refusals_stand_in_order() {
    // An event against everything at once; then one fault after the other is
    // mended.
    let mut panel = Panel::of(1, 1);
    panel.run("open incoming 9 diverted cfu counter 1 at 5");
    let mut divert = event("divert call 1 cfnr to 9 at 4");
    divert.option = 3;
    panel.station.limit = 0;
    let mut codes = vec![panel.take(&divert).code];
    panel.station.limit = 1;
    codes.push(panel.take(&divert).code);
    divert.time = 5;
    codes.push(panel.take(&divert).code);
    divert.option = 2;
    codes.push(panel.take(&divert).code);
    divert.call = 0;
    codes.push(panel.take(&divert).code);
    divert.reason = 1;
    codes.push(panel.take(&divert).code);
    panel.station.limit = 2;
    codes.push(panel.take(&divert).code);
    assert_eq!(codes, [1, 2, 3, 4, 10, 7, 0]);
}

#[test]
fn a_refusal_leaves_table_and_station() {
    let mut panel = Panel::new();
    panel.run(REQUESTED);
    let before = (panel.table.clone(), panel.station);
    for refused in [
        "clock at 2",
        "alerted call 1 at 50",
        "alerted call 0 at 50",
        "error call 0 id 4 at 50",
        "divert call 0 cfnr to 9 at 50",
    ] {
        assert_ne!(panel.run(refused).code, 0, "{refused}");
        assert_eq!(before, (panel.table.clone(), panel.station), "{refused}");
    }
}

#[test]
fn any_numbers_in_a_table_are_taken_without_a_panic() {
    let worst = Record::from_values(&[u64::MAX; model::record::COUNT]);
    for length in [1, 64, 66] {
        let mut table = vec![worst; length];
        let mut station = Station::short();
        assert!(!sound::lent_sound(&table, &station));
        let answer = step(&mut table, &mut station, &event("clock at 1"));
        assert_eq!(answer.code, 1);
    }
}
