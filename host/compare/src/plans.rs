//! Lent plans: what the library tells of one, and every number that it leaves,
//! in the plan and around it.

use crate::wire::Rehearsed;
use model::plan::{self, Panel};
use model::plans::Plan;
use model::shrink::shrink;
use std::ops::Range;

/// What the library is compared with: `model::plan::rehearse`, or a wrong one.
pub type Reference = dyn Fn(&[Panel], u16) -> Result<plan::Rehearsed, u8>;

/// Numbers before and behind a lent plan, which nobody may read: an odd count,
/// so that the plan is aligned to 2 and to no more.
const GUARDS: usize = 3;
/// What stands in them: no plan has such a panel.
const GUARD: u16 = 0xA5A5;

/// A plan that lies in memory between guards.
#[derive(Clone, Debug)]
pub struct Laid {
    /// None where the count of numbers is not four for each panel.
    pub panels: Option<Vec<Panel>>,
    pub start: u16,
    pub before: Vec<u16>,
}

/// What the library leaves of it.
#[derive(Clone, Debug, PartialEq, Eq)]
pub struct Told {
    pub answer: Rehearsed,
    pub after: Vec<u16>,
}

/// The numbers of a panel. A mark that is too wide for its byte is as much above
/// 1 as 255 is.
fn numbers(panel: &Panel) -> [u16; 4] {
    let marks = [panel.busy, panel.unattended].map(|mark| mark.min(255) as u8);
    [panel.cfu, panel.cfb, panel.cfnr, u16::from_le_bytes(marks)]
}

fn panel(&[cfu, cfb, cfnr, marks]: &[u16; 4]) -> Panel {
    let [busy, unattended] = marks.to_le_bytes().map(u16::from);
    Panel {
        cfu,
        cfb,
        cfnr,
        busy,
        unattended,
    }
}

impl Laid {
    pub fn new((panels, start): Plan) -> Laid {
        let numbers: Vec<u16> = panels.iter().flat_map(numbers).collect();
        Laid {
            panels: Some(panels),
            ..Laid::of_numbers(&numbers, start)
        }
    }

    pub fn of_numbers(numbers: &[u16], start: u16) -> Laid {
        let (panels, rest) = numbers.as_chunks();
        let whole = rest.is_empty();
        Laid {
            panels: whole.then(|| panels.iter().map(panel).collect()),
            start,
            before: [&[GUARD; GUARDS], numbers, &[GUARD; GUARDS]].concat(),
        }
    }

    /// The places that are lent.
    pub fn lent(&self) -> Range<usize> {
        GUARDS..self.before.len() - GUARDS
    }

    fn expected(&self, reference: &Reference) -> Rehearsed {
        let told = match &self.panels {
            Some(panels) => reference(panels, self.start),
            None => Err(3),
        };
        Rehearsed::from(&told)
    }

    /// What is wrong with what the library has left.
    pub fn fault(&self, told: &Told, reference: &Reference) -> Option<String> {
        let expected = self.expected(reference);
        if told.answer != expected {
            let found = told.answer;
            return Some(format!("the model, the library:\n{expected:?}\n{found:?}"));
        }
        let changed = |&at: &usize| told.after[at] != self.before[at];
        let at = (0..self.before.len()).find(changed)?;
        Some(format!("the number at {at} of {:?} changed", self.lent()))
    }
}

/// The plan with only some of its panels, in their new places. Who leads to
/// another leads nowhere; who leads outside still does.
fn with_only((panels, start): (&[Panel], u16), kept: &[usize]) -> Plan {
    let mut places = vec![0; panels.len() + 1];
    for (new, &old) in kept.iter().enumerate() {
        places[old + 1] = (new + 1) as u16;
    }
    let moved = |to: u16| places.get(usize::from(to)).copied().unwrap_or(to);
    let panel = |&at: &usize| Panel {
        cfu: moved(panels[at].cfu),
        cfb: moved(panels[at].cfb),
        cfnr: moved(panels[at].cfnr),
        ..panels[at]
    };
    (kept.iter().map(panel).collect(), moved(start))
}

/// The plan with as few panels as still have a fault, in the text form, and
/// its fault.
pub fn report(laid: &Laid, reference: &Reference, rehearse: impl Fn(&Laid) -> Told) -> String {
    let fault = |laid: &Laid| laid.fault(&rehearse(laid), reference);
    let Some(panels) = &laid.panels else {
        let fault = fault(laid).unwrap_or_default();
        return format!("{:?} from {}\n{fault}", laid.lent(), laid.start);
    };
    let less = |kept: &[usize]| Laid::new(with_only((panels, laid.start), kept));
    let all: Vec<usize> = (0..panels.len()).collect();
    let few = shrink(&all, |kept| fault(&less(kept)).is_some());
    let least = less(&few);
    let text = plan::write(least.panels.as_deref().unwrap_or_default(), least.start);
    text + &fault(&least).unwrap_or_default()
}
