//! The generators fill the fifteen places, go past them, and leave Invoked
//! every way; damage reaches every sentence about what waits.
#![forbid(unsafe_code)]

use model::codes::*;
use model::profile::{Profile, Walk};
use model::random::Random;
use model::shrink::shrink;
use model::ways::{Ways, OUT, WITHIN};
use model::{lent, panel, sound, step, vectors, Event, Record};

/// Each way is met with one, with some and with fifteen waiting.
fn all_met(ways: &Ways, least: u32) {
    for name in OUT.iter().chain(&WITHIN[2..]) {
        let met = ways.of(name);
        assert!(met.iter().all(|&count| count >= least), "{name}: {met:?}");
    }
    let more = ways.of(WITHIN[0]);
    assert!(more[0] >= least && more[1] >= least && more[2] == 0);
    let sixteenth = ways.of(WITHIN[1]);
    assert!(sixteenth[0] == 0 && sixteenth[1] == 0 && sixteenth[2] >= least);
}

#[test]
fn the_chain_profile_meets_every_way() {
    let mut ways = Ways::default();
    let mut walk = Walk::new(Profile::Chain, 3);
    for _ in 0..30_000 {
        let before = walk.table.clone();
        let (event, answer) = walk.advance();
        ways.add(&before, &event, &answer);
    }
    all_met(&ways, 8);
}

#[test]
fn lent_cases_meet_every_way() {
    let mut ways = Ways::default();
    let mut random = Random::new(5);
    for _ in 0..90_000 {
        let mut case = lent::case(&mut random);
        let before = case.table.clone();
        let answer = step(&mut case.table, &mut case.station, &case.event);
        ways.add(&before, &case.event, &answer);
    }
    all_met(&ways, 20);
}

#[test]
fn the_stored_list_meets_every_way_out() {
    let bytes = model::text::encode(&vectors::fifteen()).expect("a list");
    let (mut table, mut station) = panel::start();
    let mut ways = Ways::default();
    let mut shown = 0;
    for event in panel::records(&bytes).0 {
        let before = table.clone();
        let answer = step(&mut table, &mut station, &event);
        ways.add(&before, &event, &answer);
        shown += u32::from(answer.number.is_some());
    }
    for name in OUT {
        assert!(ways.of(name).iter().all(|&count| count > 0), "{name}");
    }
    assert!(ways.of(WITHIN[1])[2] >= 30 && shown >= 30, "{shown}");
    assert_eq!(table, panel::start().0);
}

#[test]
fn damage_breaks_each_sentence_alone() {
    let sentences = [
        "codes_in_range",
        "numbers_not_zero",
        "second_leg_only_in_invoked",
        "fifteen_wait_at_most",
        "later_ones_cfu_or_cfb",
        "unused_places_zero",
        "invoked_only_in_delivered",
    ];
    let mut met = [0; 7];
    let mut random = Random::new(9);
    let broken = |record: &Record| -> Vec<&str> {
        let sentences = sound::RECORD_SENTENCES.iter();
        let broken = sentences.filter(|(_, holds)| !holds(record));
        broken.map(|(name, _)| *name).collect()
    };
    for _ in 0..40_000 {
        let mut table = [lent::outgoing(&mut random)];
        let mut station = lent::station(&mut random);
        assert!(sound::record_sound(&table[0]));
        lent::damage(&mut random, &mut table, &mut station);
        if let [alone] = broken(&table[0])[..] {
            let at = sentences.iter().position(|&name| name == alone);
            at.into_iter().for_each(|at| met[at] += 1);
        }
    }
    assert!(met.iter().all(|&count| count > 60), "{met:?}");
}

#[test]
fn a_sixteenth_is_shortened_to_eighteen_events() {
    let refused = |list: &[Event]| {
        let answers = panel::answers(list);
        let asked = |event: &Event| event.kind == REROUTE && event.reason != CFNR;
        let both = list.iter().zip(&answers);
        both.into_iter().any(|(event, answer)| {
            let letter = answer.messages.first().map(|m| (m.letter, m.leg));
            asked(event) && letter == Some(('E', 2))
        })
    };
    let events = model::profile::events(Profile::Chain, 5, 600);
    assert!(refused(&events));
    let short = shrink(&events, refused);
    // An open, ALERTING, the cfnr invoke, fourteen and the one refused; and
    // opens that place the call.
    assert!((18..=20).contains(&short.len()), "{short:?}");
}
