//! The plans to try meet every ending and every refusal.
#![forbid(unsafe_code)]

use model::plan::{rehearse, Ending, Forward, Panel, MOST_PANELS};
use model::plans::{self, Sort};
use model::random::Random;
use model::Station;
use std::collections::BTreeMap;

/// What a plan has against it, or how it ends.
type Found = BTreeMap<String, u32>;

const DESTINATIONS: [Forward; 3] = [Forward::Cfu, Forward::Cfb, Forward::Cfnr];

fn destinations(panel: &Panel) -> [u16; 3] {
    [panel.cfu, panel.cfb, panel.cfnr]
}

/// The plan with each destination that is outside leading to panel 1.
fn mended(panels: &[Panel]) -> Vec<Panel> {
    let inside = |to: u16| match usize::from(to) <= panels.len() {
        true => to,
        false => 1,
    };
    let mend = |panel: &Panel| Panel {
        cfu: inside(panel.cfu),
        cfb: inside(panel.cfb),
        cfnr: inside(panel.cfnr),
        ..*panel
    };
    panels.iter().map(mend).collect()
}

/// Names for each destination outside: its kind, and whether the call would
/// be forwarded there.
fn outside(panels: &[Panel], start: u16) -> Vec<String> {
    let way = rehearse(&mended(panels), start).map_or(vec![], |done| done.way);
    let mut names = vec![];
    for (at, panel) in panels.iter().enumerate() {
        for (to, kind) in destinations(panel).into_iter().zip(DESTINATIONS) {
            if usize::from(to) > panels.len() {
                let reached = match way.contains(&(at as u16 + 1, kind)) {
                    true => "reached",
                    false => "unreached",
                };
                names.push(format!("{} outside, {reached}", kind.name()));
            }
        }
    }
    names
}

/// Everything that a plan has against it.
fn faults(panels: &[Panel], start: u16) -> Vec<String> {
    let mut names: Vec<String> = match panels.len() {
        0 => vec!["empty".to_string()],
        65_536.. => vec!["over 16 bits".to_string()],
        257.. => vec!["over 256".to_string()],
        _ => outside(panels, start),
    };
    if start == 0 {
        names.push("start 0".to_string());
    } else if usize::from(start) > panels.len() && !panels.is_empty() {
        names.push("start past the end".to_string());
    }
    if panels.iter().any(|panel| panel.busy > 1) {
        names.push("busy above 1".to_string());
    }
    if panels.iter().any(|panel| panel.unattended > 1) {
        names.push("unattended above 1".to_string());
    }
    names
}

/// Names for how a plan is answered.
fn endings(panels: &[Panel], start: u16) -> Vec<String> {
    let done = rehearse(panels, start).unwrap();
    let mut names = vec![format!("{:?}", done.ending)];
    if done.counter == Station::short().limit && done.ending != Ending::Limit {
        names.push(format!("{:?} with the limit used up", done.ending));
    }
    let mut met: Vec<u16> = done.way.iter().map(|step| step.0).collect();
    met.sort_unstable();
    met.dedup();
    if done.ending == Ending::Limit {
        names.push(match met.len() {
            1 if met[0] == done.last => "circle of one".to_string(),
            length if length < done.way.len() => "circle".to_string(),
            _ => "chain over the limit".to_string(),
        });
    }
    for kind in DESTINATIONS {
        if done.way.iter().any(|step| step.1 == kind) {
            names.push(format!("forwards by {}", kind.name()));
        }
    }
    match panels.len() {
        1 => names.push("one panel".to_string()),
        MOST_PANELS => names.push("256 panels".to_string()),
        _ => {}
    }
    names
}

fn count(found: &mut Found, names: Vec<String>) {
    for name in names {
        *found.entry(name).or_default() += 1;
    }
}

const MUST_BE_MET: [&str; 26] = [
    "Rings",
    "Busy",
    "Limit",
    "Rings with the limit used up",
    "Busy with the limit used up",
    "chain over the limit",
    "circle",
    "circle of one",
    "forwards by cfu",
    "forwards by cfb",
    "forwards by cfnr",
    "one panel",
    "256 panels",
    "empty",
    "over 256",
    "over 16 bits",
    "start 0",
    "start past the end",
    "cfu outside, reached",
    "cfu outside, unreached",
    "cfb outside, reached",
    "cfb outside, unreached",
    "cfnr outside, reached",
    "cfnr outside, unreached",
    "busy above 1",
    "unattended above 1",
];

#[test]
fn the_plans_meet_every_ending_and_every_refusal_alone() {
    let mut random = Random::new(5);
    let mut found = Found::new();
    for _ in 0..6000 {
        let (panels, start) = plans::any(&mut random);
        let faults = faults(&panels, start);
        assert_eq!(rehearse(&panels, start).is_ok(), faults.is_empty());
        match faults.len() {
            0 => count(&mut found, endings(&panels, start)),
            // A lone fault is the telling case.
            1 => count(&mut found, faults),
            _ => {}
        }
    }
    for name in MUST_BE_MET {
        let met = found.get(name).copied().unwrap_or(0);
        assert!(met > 4, "{name}: {met} of {found:?}");
    }
    assert_eq!(found.len(), MUST_BE_MET.len(), "{found:?}");
}

#[test]
fn each_sort_is_what_its_name_says() {
    let mut random = Random::new(8);
    for sort in plans::ALL {
        for _ in 0..60 {
            let (panels, start) = plans::of(sort, &mut random);
            let taken = rehearse(&panels, start).is_ok();
            let good = match sort {
                Sort::Chain | Sort::Mix => taken,
                Sort::Circle => rehearse(&panels, start).unwrap().ending == Ending::Limit,
                Sort::One => taken && panels.len() == 1,
                Sort::Full => taken && panels.len() == MOST_PANELS,
                _ => !taken,
            };
            assert!(good, "{sort:?}: {start} of {panels:?}");
        }
    }
}

#[test]
fn plans_are_deterministic() {
    let list = |seed| {
        let mut random = Random::new(seed);
        (0..50).map(|_| plans::any(&mut random)).collect::<Vec<_>>()
    };
    assert_eq!(list(3), list(3));
    assert_ne!(list(3), list(4));
}
