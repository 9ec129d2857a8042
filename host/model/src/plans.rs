//! Plans to try, in sorts that each press on one part of the request: most of
//! them are answered, some are against it in one place.

use crate::plan::{Panel, MOST_PANELS};
use crate::random::Random;

/// A plan and the panel that is offered the call.
pub type Plan = (Vec<Panel>, u16);

#[derive(Clone, Copy, Debug, PartialEq, Eq, Hash)]
pub enum Sort {
    /// Forwards in a row, some fewer and some more than the limit allows.
    Chain,
    /// A chain whose end leads back into it, also a panel that names itself.
    Circle,
    /// Any panels in a plan of any size.
    Mix,
    /// One panel.
    One,
    /// As many panels as there may be.
    Full,
    Empty,
    /// Over 256 panels.
    TooLong,
    /// Start 0 or past the end.
    StartOutside,
    /// One destination past the end, on the way or off it.
    DestinationOutside,
    /// One mark above 1.
    Mark,
}

pub const ALL: [Sort; 10] = [
    Sort::Chain,
    Sort::Circle,
    Sort::Mix,
    Sort::One,
    Sort::Full,
    Sort::Empty,
    Sort::TooLong,
    Sort::StartOutside,
    Sort::DestinationOutside,
    Sort::Mark,
];

/// A plan of that sort. The same generator state gives the same plan.
pub fn of(sort: Sort, random: &mut Random) -> Plan {
    match sort {
        Sort::Chain => chain(random, false),
        Sort::Circle => chain(random, true),
        Sort::Mix => {
            let most = random.pick(&[3, 8, 20, 60, 256]);
            let count = 1 + random.below(most) as usize;
            mix(random, count)
        }
        Sort::One => mix(random, 1),
        Sort::Full => mix(random, MOST_PANELS),
        Sort::Empty => (vec![], random.pick(&[0, 1, 2, 256])),
        Sort::TooLong => too_long(random),
        Sort::StartOutside => start_outside(random),
        Sort::DestinationOutside => destination_outside(random),
        Sort::Mark => mark(random),
    }
}

/// A plan of any sort, mostly one that is answered.
pub fn any(random: &mut Random) -> Plan {
    let sort = random.weighted(&[
        (8, Sort::Chain),
        (4, Sort::Circle),
        (6, Sort::Mix),
        (2, Sort::One),
        (2, Sort::Full),
        (1, Sort::Empty),
        (1, Sort::TooLong),
        (1, Sort::StartOutside),
        (2, Sort::DestinationOutside),
        (2, Sort::Mark),
    ]);
    of(sort, random)
}

/// A destination in a plan of that many panels, or none.
fn destination(random: &mut Random, count: usize) -> u16 {
    random.below(count as u64 + 1) as u16
}

/// A panel with anything in it.
fn panel(random: &mut Random, count: usize) -> Panel {
    Panel {
        cfu: destination(random, count),
        cfb: destination(random, count),
        cfnr: destination(random, count),
        busy: random.below(2) as u16,
        unattended: random.below(2) as u16,
    }
}

/// A panel whose destinations are mostly absent.
fn sparse(random: &mut Random, count: usize) -> Panel {
    let mut panel = panel(random, count);
    for to in [&mut panel.cfu, &mut panel.cfb, &mut panel.cfnr] {
        *to *= u16::from(random.chance(30));
    }
    panel
}

/// A panel that forwards to that one; what it does not ask for is anything.
fn forwarding(random: &mut Random, count: usize, to: u16) -> Panel {
    let any = panel(random, count);
    match random.below(3) {
        0 => Panel { cfu: to, ..any },
        1 => Panel {
            cfu: 0,
            cfb: to,
            busy: 1,
            ..any
        },
        _ => Panel {
            cfu: 0,
            busy: 0,
            cfnr: to,
            unattended: 1,
            ..any
        },
    }
}

/// A panel that rings or is busy; what it does not ask for is anything.
fn ending(random: &mut Random, count: usize) -> Panel {
    let any = Panel {
        cfu: 0,
        ..panel(random, count)
    };
    match random.below(3) {
        0 => Panel {
            cfb: 0,
            busy: 1,
            ..any
        },
        1 => Panel {
            busy: 0,
            unattended: 0,
            ..any
        },
        _ => Panel {
            busy: 0,
            cfnr: 0,
            ..any
        },
    }
}

/// The numbers 1 to `count` in any order.
fn shuffled(random: &mut Random, count: usize) -> Vec<u16> {
    let mut numbers: Vec<u16> = (1..=count as u16).collect();
    for at in (1..count).rev() {
        numbers.swap(at, random.below(at as u64 + 1) as usize);
    }
    numbers
}

/// A row of forwards through panels in any order, to its end or back into the
/// row; the panels beside it hold anything.
fn chain(random: &mut Random, back: bool) -> Plan {
    let long = random.below(40);
    let forwards = random.pick(&[0, 1, 3, 4, 5, 6, 13, 14, 15, 16, 17, 255, long]) as usize;
    let spare = random.below(12) as usize;
    let count = (forwards + 1 + spare).min(MOST_PANELS);
    let order = shuffled(random, count);
    let mut panels: Vec<Panel> = (0..count).map(|_| panel(random, count)).collect();
    for pair in order[..=forwards].windows(2) {
        panels[usize::from(pair[0]) - 1] = forwarding(random, count, pair[1]);
    }
    let into = random.pick(&order[..=forwards]);
    panels[usize::from(order[forwards]) - 1] = match back {
        true => forwarding(random, count, into),
        false => ending(random, count),
    };
    (panels, order[0])
}

fn mix(random: &mut Random, count: usize) -> Plan {
    let draw = random.pick(&[panel, sparse, sparse]);
    let panels = (0..count).map(|_| draw(random, count)).collect();
    (panels, 1 + random.below(count as u64) as u16)
}

/// Over 256 panels, now and then so many that 16 bits do not count them. All
/// else is in order.
fn too_long(random: &mut Random) -> Plan {
    let most = MOST_PANELS;
    let lengths = [(8, most + 1), (4, most + 2), (4, 2 * most), (1, 65_537)];
    let count = random.weighted(&lengths);
    let panels = (0..count).map(|_| sparse(random, most)).collect();
    (panels, 1 + random.below(most as u64) as u16)
}

/// A plan that is answered, to be changed in one place.
fn good(random: &mut Random) -> Plan {
    let sort = random.pick(&[Sort::Chain, Sort::Circle, Sort::Mix, Sort::One, Sort::Full]);
    of(sort, random)
}

/// A number past the end of a plan of that many panels.
fn past(random: &mut Random, count: usize) -> u16 {
    let next = count as u16 + 1;
    random.pick(&[next, next, 257, 512, 65_535])
}

fn start_outside(random: &mut Random) -> Plan {
    let (panels, _) = good(random);
    let past = past(random, panels.len());
    (panels, random.pick(&[0, past]))
}

/// The start panel or any one.
fn somewhere(random: &mut Random, plan: &Plan) -> usize {
    match random.chance(50) {
        true => usize::from(plan.1) - 1,
        false => random.below(plan.0.len() as u64) as usize,
    }
}

fn destination_outside(random: &mut Random) -> Plan {
    let mut plan = good(random);
    let count = plan.0.len();
    let at = somewhere(random, &plan);
    let to = past(random, count);
    let panel = &mut plan.0[at];
    match random.below(4) {
        0 => panel.cfu = to,
        1 => panel.cfb = to,
        2 => panel.cfnr = to,
        _ => *panel = forwarding(random, count, to),
    }
    plan
}

fn mark(random: &mut Random) -> Plan {
    let mut plan = good(random);
    let at = somewhere(random, &plan);
    let value = random.pick(&[2, 2, 3, 255, 256, 257, 65_535]);
    match random.chance(50) {
        true => plan.0[at].busy = value,
        false => plan.0[at].unattended = value,
    }
    plan
}
