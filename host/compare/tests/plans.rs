//! Plans lent to the linked library: by the Rust wrapper in this process, and a
//! part by each archive's C server. Compared are what is told and every number,
//! also of those around the plan.
#![forbid(unsafe_code)]

use compare::check::first_seed;
use compare::plans::{report, Laid, Told};
use compare::wire::Rehearsed;
use compare::{wrapped, Archive, Engine};
use model::plan::{rehearse, MOST_PANELS};
use model::plans::{self, Sort};
use model::random::Random;
use model::Station;
use std::cell::RefCell;
use std::collections::BTreeMap;

/// Plans by the wrapper and by a server, and of those at once.
const WRAPPED: u64 = 200_000;
const SERVED: u64 = 16_000;
const CHUNK: u64 = 200;

/// How many plans were told what, by sort.
type Counts = BTreeMap<String, u64>;

/// A way to the library.
type Way<'a> = &'a dyn Fn(&[Laid]) -> Vec<Told>;

const SORTS: [(u64, Sort); 10] = [
    (8, Sort::Chain),
    (4, Sort::Circle),
    (6, Sort::Mix),
    (2, Sort::One),
    (2, Sort::Full),
    (1, Sort::Empty),
    (1, Sort::TooLong),
    (2, Sort::StartOutside),
    (3, Sort::DestinationOutside),
    (3, Sort::Mark),
];

const MUST_BE_MET: [&str; 21] = [
    "Chain rings",
    "Chain rings, limit used up",
    "Chain busy",
    "Chain busy, limit used up",
    "Chain limit",
    "Circle limit",
    "Mix rings",
    "Mix busy",
    "Mix limit",
    "One rings",
    "One busy",
    "One limit",
    "Full rings",
    "Full busy",
    "Full limit",
    "Empty refused",
    "TooLong refused",
    "StartOutside refused, 0",
    "StartOutside refused, past the end",
    "DestinationOutside refused",
    "Mark refused",
];

fn by_wrapper(cases: &[Laid]) -> Vec<Told> {
    cases.iter().map(wrapped::rehearse).collect()
}

/// Runs a test on each archive's server.
fn by_servers(test: impl Fn(Archive, Way)) {
    for &archive in Archive::all() {
        let engine = RefCell::new(Engine::start(archive));
        test(archive, &|cases| engine.borrow_mut().rehearse(cases));
    }
}

/// What is told of each plan, if it is what the model says.
fn held(cases: &[Laid], way: Way) -> Vec<Rehearsed> {
    let told = way(cases);
    for (laid, told) in cases.iter().zip(&told) {
        if laid.fault(told, &rehearse).is_some() {
            let one = |laid: &Laid| way(std::slice::from_ref(laid)).remove(0);
            panic!("{}", report(laid, &rehearse, one));
        }
    }
    told.into_iter().map(|told| told.answer).collect()
}

fn name(sort: Sort, start: u16, told: &Rehearsed) -> String {
    let used_up = told.counter == Station::short().limit;
    let end = match (told.ending, sort, start) {
        (1, ..) if used_up => "rings, limit used up",
        (1, ..) => "rings",
        (2, ..) if used_up => "busy, limit used up",
        (2, ..) => "busy",
        (3, ..) => "limit",
        (_, Sort::StartOutside, 0) => "refused, 0",
        (_, Sort::StartOutside, _) => "refused, past the end",
        _ => "refused",
    };
    format!("{sort:?} {end}")
}

/// Plans of every sort, one way.
fn random_plans(count: u64, seed: u64, way: Way, also: impl Fn(&Laid, &Rehearsed)) -> Counts {
    let mut random = Random::new(seed);
    let mut counts = Counts::new();
    for _ in 0..count.div_ceil(CHUNK) {
        let sorts: Vec<Sort> = (0..CHUNK).map(|_| random.weighted(&SORTS)).collect();
        let cases: Vec<Laid> = sorts
            .iter()
            .map(|&sort| Laid::new(plans::of(sort, &mut random)))
            .collect();
        for ((laid, sort), told) in cases.iter().zip(sorts).zip(held(&cases, way)) {
            also(laid, &told);
            *counts.entry(name(sort, laid.start, &told)).or_default() += 1;
        }
    }
    counts
}

fn all_met(counts: &Counts, least: u64) {
    for name in MUST_BE_MET {
        let met = counts.get(name).copied().unwrap_or(0);
        assert!(met >= least, "{name}: {met} of {counts:#?}");
    }
}

/// The wrapper's own panels tell the same.
fn same_typed(laid: &Laid, told: &Rehearsed) {
    let panels = laid.panels.as_deref().expect("whole panels");
    match wrapped::rehearse_typed(panels, laid.start) {
        Some(typed) => assert_eq!(typed, *told),
        None => assert_eq!(told.code, 3),
    }
}

#[test]
fn a_hundred_thousand_plans_and_more() {
    let counts = random_plans(WRAPPED, first_seed(), &by_wrapper, same_typed);
    println!("plans: {counts:#?}");
    assert!(counts.values().sum::<u64>() >= 100_000);
    all_met(&counts, 100);
}

#[test]
fn by_the_server_of_each_archive() {
    by_servers(|archive, way| {
        let count = archive.part(SERVED);
        let counts = random_plans(count, !first_seed(), way, |_, _| {});
        println!("{archive:?}: {counts:#?}");
        all_met(&counts, 1);
    });
}

/// Panels that have nothing set, so that only the count of numbers decides.
#[test]
fn every_count_of_numbers() {
    let counts = 0..=4 * MOST_PANELS + 40;
    let cases: Vec<Laid> = counts
        .flat_map(|count| [1, 2].map(|start| Laid::of_numbers(&vec![0; count], start)))
        .collect();
    let good = |told: Vec<Rehearsed>| told.iter().filter(|told| told.code == 0).count();
    assert_eq!(good(held(&cases, &by_wrapper)), 2 * MOST_PANELS - 1);
    by_servers(|_, way| assert_eq!(good(held(&cases, way)), 2 * MOST_PANELS - 1));
}

/// Plans that are answered, but for the last one to three numbers.
#[test]
fn cut_plans() {
    let mut random = Random::new(first_seed());
    for _ in 0..2_000 {
        let sort = random.pick(&[Sort::Chain, Sort::Circle, Sort::Mix, Sort::One]);
        let whole = Laid::new(plans::of(sort, &mut random));
        let numbers = &whole.before[whole.lent()];
        let cut = |less| Laid::of_numbers(&numbers[..numbers.len() - less], whole.start);
        let told = held(&[cut(0), cut(1), cut(2), cut(3)], &by_wrapper);
        let codes: Vec<u8> = told.iter().map(|told| told.code).collect();
        assert_eq!(codes, [0, 3, 3, 3]);
    }
}

/// Every value of each number of a panel, that is on the way and that is not,
/// and every start.
#[test]
fn every_value_of_every_number() {
    let mut counts = [0_u64; 2];
    for marks in [0x0000, 0x0001, 0x0100, 0x0101] {
        for destinations in [[0, 0, 0], [0, 2, 3], [0, 0, 3], [0, 2, 0], [2, 3, 1]] {
            let [cfu, cfb, cfnr] = destinations;
            let plan = [cfu, cfb, cfnr, marks, 0, 0, 0, 0, 0, 0, 1, 0x0100];
            for place in 0..5 {
                for value in 0..=u16::MAX {
                    let (mut numbers, mut start) = (plan, 1 + value % 2);
                    match place {
                        4 => start = value,
                        _ => numbers[place] = value,
                    }
                    let laid = Laid::of_numbers(&numbers, start);
                    let told = held(&[laid], &by_wrapper);
                    counts[usize::from(told[0].code != 0)] += 1;
                }
            }
        }
    }
    println!("every value: {} answered, {} refused", counts[0], counts[1]);
    assert!(counts.iter().all(|&count| count > 100), "{counts:?}");
}
