//! Readings of soundness: refusal 1.
#![forbid(unsafe_code)]

mod common;

use common::*;
use model::record::{COUNT, PLAIN};
use model::{sound, Record};

/// The record as these lines leave it, changed; is it sound?
fn sound_with(lines: &str, change: impl Fn(&mut Record)) -> bool {
    let mut changed = record(lines, 0);
    assert!(sound::record_sound(&changed));
    change(&mut changed);
    sound::record_sound(&changed)
}

const WAIT: &str = "open incoming 9 diverted cfu counter 2 from 3 at 1";

#[test]
fn counter_0_makes_the_diversion_numbers_unused() {
    assert!(!sound_with(RINGS, |r| r.diverting = 1));
    assert!(!sound_with(RINGS, |r| r.original = 1));
    assert!(sound_with(WAIT, |r| r.original = 1));
    assert!(sound_with(WAIT, |r| r.diverting = 0));
}

#[test]
fn a_free_record_is_all_0() {
    let free = Record::default();
    for field in 0..COUNT {
        let mut values = free.values();
        values[field] = 1;
        assert!(!sound::record_sound(&Record::from_values(&values)));
    }
}

#[test]
fn each_direction_has_0_in_the_others_fields() {
    for field in 10..PLAIN {
        let mut values = record(DIVERT, 0).values();
        values[field] = 1;
        assert!(!sound::record_sound(&Record::from_values(&values)));
    }
    for field in (2..10).chain(PLAIN..COUNT) {
        let mut values = record(RINGS, 0).values();
        values[field] = 1;
        assert!(!sound::record_sound(&Record::from_values(&values)));
    }
}

#[test]
fn leg_2_option_and_reason_are_0_in_cdr_idle() {
    assert!(!sound_with(DIVERT, |r| r.waits.first.number = 1));
    assert!(!sound_with(DIVERT, |r| r.waits.first.option = 1));
    assert!(!sound_with(DIVERT, |r| r.waits.first.reason = 3));
    assert!(!sound_with(INVOKED, |r| r.cdr = 0));
    assert!(!sound_with(INVOKED, |r| r.waits.first.number = 0));
    assert!(!sound_with(INVOKED, |r| r.waits.first.reason = 1));
    assert!(!sound_with(INVOKED, |r| r.basic = 1));
    assert!(sound_with(INVOKED, |r| r.waits.first.option = 0));
    assert!(!sound_with(INVOKED, |r| r.waits.first.option = 3));
}

#[test]
fn request_fields_are_0_unless_requested() {
    assert!(!sound_with(REQUESTED, |r| r.cds = 0));
    assert!(!sound_with(RINGS, |r| r.reason = 3));
    assert!(!sound_with(RINGS, |r| r.identifier = 1));
    assert!(!sound_with(RINGS, |r| r.start = 1));
    let granted = |r: &mut Record| (r.granted, r.reason) = (1, 3);
    assert!(sound_with(RINGS, granted));
    let granted_early = |r: &mut Record| (r.granted, r.reason) = (1, 1);
    assert!(!sound_with(RINGS, granted_early));
    assert!(!sound_with(RINGS, |r| r.granted = 1));
    let with_identifier = |r: &mut Record| (r.granted, r.reason, r.identifier) = (1, 3, 1);
    assert!(!sound_with(RINGS, with_identifier));
}

#[test]
fn requested_granted_and_active_exclude_each_other() {
    assert!(!sound_with(REQUESTED, |r| r.granted = 1));
    assert!(!sound_with(REQUESTED, |r| r.basic = 3));
    assert!(!sound_with(REQUESTED, |r| r.basic = 1));
    assert!(!sound_with(REQUESTED, |r| r.reason = 2));
}

#[test]
fn cdf_done_outside_active_is_sound_and_answers_plainly() {
    assert!(sound_with(WAIT, |r| r.cdf = 2));
    assert!(!sound_with(WAIT, |r| r.cdf = 0));
    assert!(!sound_with(WAIT, |r| r.counter = 0));
    assert!(!sound_with(WAIT, |r| r.basic = 3));
    let mut panel = Panel::new();
    panel.run(WAIT);
    panel.table[0].cdf = 2;
    assert_eq!(panel.line("answer call 0 allowed at 2"), "0 0 - - - - C1");
}

#[test]
fn a_request_or_grant_in_wait_is_sound() {
    let requested = join(WAIT, "divert call 0 cfb to 5 at 2");
    assert_eq!(record(&requested, 0).cdf, 1);
    let granted = join(&requested, "result call 0 id 65535 at 3");
    assert!(sound_with(&granted, |_| ()));
    assert_eq!(record(&granted, 0).cdf, 1);
}

#[test]
fn any_mix_of_history_is_sound_after_a_dli1_and_none_before() {
    for mix in 0..12_u8 {
        let set = |r: &mut Record| {
            (r.strictest, r.forbidden, r.shown) = (mix % 3, mix / 3 % 2, mix / 6);
        };
        assert!(sound_with(DIVERT, set));
        assert_eq!(sound_with("open outgoing 1 at 1", set), mix == 0);
    }
    assert!(!sound_with(DIVERT, |r| r.nominated = 0));
    assert!(!sound_with("open outgoing 1 at 1", |r| r.nominated = 1));
}

#[test]
fn marks_above_1_and_codes_out_of_range_are_not_sound() {
    assert!(!sound_with(DIVERT, |r| r.seen = 2));
    assert!(!sound_with(DIVERT, |r| r.forbidden = 2));
    assert!(!sound_with(DIVERT, |r| r.shown = 2));
    assert!(!sound_with(DIVERT, |r| r.strictest = 3));
    assert!(!sound_with(DIVERT, |r| r.cdo = 0));
    assert!(!sound_with(DIVERT, |r| r.cdo = 2));
    assert!(!sound_with(DIVERT, |r| r.basic = 3));
    assert!(!sound_with(DIVERT, |r| r.basic = 0));
    assert!(!sound_with(DIVERT, |r| r.basic = 4));
    assert!(!sound_with(DIVERT, |r| r.direction = 3));
    assert!(!sound_with(DIVERT, |r| r.leg1 = 0));
    assert!(!sound_with(RINGS, |r| r.granted = 2));
    assert!(!sound_with(RINGS, |r| r.own = 0));
    assert!(!sound_with(WAIT, |r| r.counter = 16));
    assert!(!sound_with(WAIT, |r| r.cdf = 3));
}

#[test]
fn a_stored_counter_above_the_limit_is_sound() {
    let mut panel = Panel::of(1, 2);
    panel.run("open incoming 9 diverted cfu counter 9 at 1");
    assert!(sound::lent_sound(&panel.table, &panel.station));
    assert_eq!(panel.run("divert call 0 cfu to 5 at 2").code, 7);
}

#[test]
fn a_start_is_held_against_the_last_time() {
    let mut panel = Panel::new();
    panel.run(REQUESTED);
    panel.table[0].start = panel.station.last_time + 1;
    assert_eq!(panel.run("clock at 50000").code, 1);
    panel.table[0].start -= 1;
    assert_eq!(panel.run("clock at 50000").code, 0);
}

#[test]
fn two_requests_may_not_share_an_identifier() {
    let mut panel = Panel::new();
    panel.run(REQUESTED);
    panel.table[5] = panel.table[0];
    assert_eq!(panel.run("clock at 4").code, 1);
    panel.table[5].identifier = 4;
    assert_eq!(panel.run("clock at 4").code, 0);
}

#[test]
fn a_limit_outside_1_to_15_is_1() {
    let mut panel = Panel::new();
    for (limit, code) in [(0, 1), (1, 0), (15, 0), (16, 1), (255, 1)] {
        panel.station.limit = limit;
        assert_eq!(panel.run("clock at 4").code, code, "limit {limit}");
    }
}
