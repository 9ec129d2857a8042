//! Calls with one to fifteen DLI1s waiting, and with a sixteenth that is not taken,
//! left in each way: by the wrapper in place and by each archive's server. And wrong
//! models of what waits, which must be found.
#![forbid(unsafe_code)]

use compare::check::{first_seed, Comparison, Reference};
use compare::memory::Reader;
use compare::tables::{report, Laid};
use compare::wire::Answer;
use compare::{hostile, wrapped, Archive, Board};
use model::codes::*;
use model::profile::Profile;
use model::random::Random;
use model::waits::MOST_LATER;
use model::ways::Ways;
use model::{panel, step, text, ways, Dli1, Event, Record, Station};
use whipsail::{Call, MOST_WAITING};

/// The ways out of Invoked.
const OUT: [&str; 6] = [
    "message call 0 leg 2 alerting dli3-allowed",
    "message call 0 leg 2 connect dli3-forbidden number 7",
    "message call 0 leg 1 release-complete",
    "message call 0 leg 2 release-complete",
    "message call 0 leg 1 connect dli3-allowed",
    "end call 0",
];

/// Invokes that are not taken in Invoked.
const NOT_TAKEN: [&str; 3] = [
    "reroute call 0 leg 1 cfu with-number counter 1 id 70 to 300",
    "reroute call 0 leg 1 cfnr with-number counter 1 id 71 to 301",
    "reroute call 0 leg 2 cfnr with-number counter 15 id 0 to 302",
];

/// An option, mostly with number: one stricter one hides it.
fn option(random: &mut Random) -> &'static str {
    random.weighted(&[(1, ""), (2, "without-number"), (40, "with-number")])
}

/// One call on which so many invokes come that may wait, and which leaves that state.
fn call(random: &mut Random, count: usize, out: &str) -> String {
    let mut lines = vec!["open outgoing 101".to_string()];
    if random.chance(50) {
        lines.push(format!("dli1 call 0 cfb {} to 150", option(random)));
    }
    lines.push("message call 0 leg 1 alerting".to_string());
    for at in 0..count {
        let on = match at {
            0 => "leg 1 cfnr",
            _ => random.pick(&["leg 2 cfu", "leg 2 cfb"]),
        };
        let (option, counter) = (option(random), random.byte(1, 15));
        let number = random.number();
        lines.push(format!(
            "reroute call 0 {on} {option} counter {counter} id {at} to {number} original 9"
        ));
    }
    lines.extend(NOT_TAKEN.map(str::to_string));
    let shows = "message call 0 leg 1 facility dli3-allowed";
    lines.extend([shows, out, shows, "end call 0"].map(str::to_string));
    lines.iter().map(|line| format!("{line} at 1\n")).collect()
}

/// One call after the other: each count up to a sixteenth and past it, each way out.
fn calls(seed: u64) -> Vec<Event> {
    let mut random = Random::new(seed);
    let mut lines = String::new();
    for count in 1..=MOST_WAITING + 2 {
        for out in OUT {
            lines += &call(&mut random, count, out);
        }
    }
    let bytes = text::encode(&lines).expect("events");
    panel::records(&bytes).0
}

fn plain(dli1: whipsail::Dli1) -> Dli1 {
    Dli1 {
        reason: dli1.reason.number(),
        option: dli1.option.number(),
        number: dli1.number.get(),
    }
}

/// What the wrapper says waits is what waits in the model.
fn same_waits(call: &Call, record: &Record) {
    let waiting: Vec<Dli1> = call.waiting().map(plain).collect();
    let expected = match record.is_invoked() {
        true => record.waits.in_order(),
        false => Vec::new(),
    };
    assert_eq!(waiting, expected);
    assert_eq!(call.forwarded(), whipsail::Number::new(record.leg2()));
}

#[test]
fn by_the_wrapper_in_place() {
    let mut ways = Ways::default();
    for seed in first_seed()..first_seed() + 50 {
        let (mut table, mut station) = ([Record::default()], panel::start().1);
        let mut calls_lent = [Call::FREE];
        let mut lent = whipsail::Station::fresh(panel::LIMIT, true, true).expect("a limit");
        for event in calls(seed) {
            let before = table;
            let answer = step(&mut table, &mut station, &event);
            ways.add(&before, &event, &answer);
            let event = whipsail::Event::from_bytes(&event.encode());
            let told = wrapped::answer(lent.step(&mut calls_lent, &event));
            assert_eq!(told, Answer::from(&answer), "seed {seed}, {event:?}");
            let left = Reader(&calls_lent[0].to_bytes()).call();
            assert_eq!(left, table[0], "seed {seed}, {event:?}");
            same_waits(&calls_lent[0], &table[0]);
        }
        assert_eq!(wrapped::plain(&lent), station);
    }
    for name in ways::OUT {
        assert!(ways.of(name).iter().all(|&count| count > 20), "{ways:?}");
    }
    assert!(ways.of("a sixteenth is refused")[2] > 200, "{ways:?}");
}

#[test]
fn by_the_server_of_each_archive() {
    for &archive in Archive::all() {
        let comparison = Comparison::new(archive, &step);
        for seed in first_seed()..first_seed() + archive.part(8) {
            let name = format!("{archive:?}, seed {seed}");
            let same = comparison.list(&name, &Board::panel(), &calls(seed));
            same.unwrap_or_else(|said| panic!("{said}"));
        }
    }
}

/// Runs calls that are forwarded on and on until the difference is found; the report
/// has at most that many events.
fn found(wrong: &Reference, most: usize) {
    let said = Comparison::new(Archive::Native, wrong)
        .walk(Profile::Chain, 1, &Board::panel(), 50_000)
        .expect_err("a wrong model is found");
    let enough = |count| said.contains(&format!("; {count} events are enough"));
    assert!((1..=most).any(enough), "{said}");
}

/// The record that a done event named, as it was before.
fn before<'a>(table: &'a [Record], answer: &model::Answer) -> Option<&'a Record> {
    table.get(usize::from(answer.call?))
}

#[test]
fn a_fifteenth_that_is_not_taken() {
    let wrong = |table: &mut [Record], station: &mut Station, event: &Event| {
        let stood = table.to_vec();
        let answer = step(table, station, event);
        let full = before(&stood, &answer).is_some_and(|r| r.waits.used().len() == MOST_LATER - 1);
        if !full || event.kind != REROUTE || event.leg == 1 || event.reason == CFNR {
            return answer;
        }
        table.copy_from_slice(&stood);
        let error = model::Message::echo('E', 2, event.identifier);
        model::Answer::done(event.call, vec![error])
    };
    found(&wrong, 3 + MOST_LATER);
}

/// Of all that wait the last alone reaches the history.
#[test]
fn the_last_alone_handed_over() {
    let wrong = |table: &mut [Record], station: &mut Station, event: &Event| {
        let stood = table.to_vec();
        let answer = step(table, station, event);
        if let Some(was) = before(&stood, &answer).filter(|was| was.is_invoked()) {
            let now = &mut table[usize::from(event.call)];
            let handed_over = now.seen == 1 && !now.is_invoked() && now.leg1 == was.leg2();
            let last = was.waits.in_order().last().map_or(0, |last| last.option);
            if handed_over && was.seen == 0 {
                now.strictest = last;
            }
        }
        answer
    };
    found(&wrong, 6);
}

#[test]
fn leg_1_as_the_diverting_number() {
    let wrong = |table: &mut [Record], station: &mut Station, event: &Event| {
        let mut answer = step(table, station, event);
        for setup in answer.messages.iter_mut().filter(|m| m.letter == 'S') {
            setup.diverting = match setup.leg {
                2 => table[usize::from(event.call)].leg1,
                _ => setup.diverting,
            };
        }
        answer
    };
    found(&wrong, 4);
}

/// Takes each record for a sound one in one respect.
const TAKEN_FOR: [(&str, fn(&mut Record)); 5] = [
    ("more than fifteen", |record| {
        record.waits.count = record.waits.count.min(MOST_LATER as u8);
    }),
    ("a later one cfnr", |record| {
        let count = record.waits.used().len();
        for later in &mut record.waits.later[..count] {
            later.reason = later.reason.min(CFB);
        }
    }),
    ("no number", |record| {
        let count = record.waits.used().len();
        for later in &mut record.waits.later[..count] {
            later.number = later.number.max(1);
        }
    }),
    ("no such option", |record| {
        let count = record.waits.used().len();
        for later in &mut record.waits.later[..count] {
            later.option = later.option.min(WITH_NUMBER);
        }
    }),
    ("an unused place", |record| {
        let count = record.waits.used().len();
        record.waits.later[count..].fill(Dli1::default());
    }),
];

#[test]
fn one_sentence_of_what_waits() {
    for (name, fix) in TAKEN_FOR {
        let wrong = move |table: &mut [Record], station: &mut Station, event: &Event| {
            table.iter_mut().for_each(fix);
            step(table, station, event)
        };
        let mut random = Random::new(8);
        let differs = (0..50_000)
            .map(|_| Laid::new(hostile::table(&mut random)))
            .find(|laid| laid.fault(&wrapped::lend(laid), &wrong).is_some());
        let laid = differs.unwrap_or_else(|| panic!("{name} is not found"));
        let said = report(&laid, &wrong, wrapped::lend);
        let records = said.lines().filter(|line| line.contains("Record {"));
        assert_eq!(records.count(), 1, "{name}: {said}");
    }
}
