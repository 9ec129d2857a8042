//! Plans of forwardings: who will ring tonight?

use crate::code::open_numbers;
use crate::{raw, Number, Refusal};

open_numbers! {
    /// How a rehearsed call ends.
    #[derive(Debug)]
    Ending {
        /// The last panel rings.
        Rings = 1,
        /// The last panel is busy, and has no `cfb`.
        Busy = 2,
        /// The last panel would forward the call once more than the limit of
        /// [`Station::short`](crate::Station::short) allows, as in any circle.
        Limit = 3,
    }
}

impl Ending {
    /// In words.
    pub const fn text(self) -> &'static str {
        match self {
            Ending::Rings => "rings",
            Ending::Busy => "busy",
            Ending::Limit => "limit",
            Ending::Other(_) => "an ending not known here",
        }
    }
}

/// One panel of a plan: where it forwards a call that it is offered. A
/// destination is the number of a panel, which is its place in the plan, from 1.
#[derive(Clone, Copy, Debug, Default, PartialEq, Eq, Hash)]
pub struct Panel {
    /// Where every call goes.
    pub cfu: Option<Number>,
    /// Where a call goes while the panel is busy.
    pub cfb: Option<Number>,
    /// Where a call goes while the panel is unattended and not busy.
    pub cfnr: Option<Number>,
    /// It takes no call; without `cfb` the call ends here.
    pub busy: bool,
    /// Nobody would answer; without `cfnr` it rings all the same.
    pub unattended: bool,
}

impl Panel {
    /// Nothing is set: it rings.
    pub const UNSET: Panel = Panel {
        cfu: None,
        cfb: None,
        cfnr: None,
        busy: false,
        unattended: false,
    };

    /// The four numbers that stand for it in a plan.
    pub const fn numbers(self) -> [u16; 4] {
        let marks = self.busy as u16 | (self.unattended as u16) << 8;
        [to(self.cfu), to(self.cfb), to(self.cfnr), marks]
    }

    /// The panel of four numbers; none where a mark is above 1.
    pub const fn of(numbers: [u16; 4]) -> Option<Panel> {
        let [cfu, cfb, cfnr, marks] = numbers;
        if marks & !0x0101 != 0 {
            return None;
        }
        Some(Panel {
            cfu: Number::new(cfu),
            cfb: Number::new(cfb),
            cfnr: Number::new(cfnr),
            busy: marks & 0x0001 != 0,
            unattended: marks & 0x0100 != 0,
        })
    }
}

/// 0 stands for none.
const fn to(destination: Option<Number>) -> u16 {
    match destination {
        Some(number) => number.get(),
        None => 0,
    }
}

/// A plan of 1 to 256 panels, borrowed and only read.
///
/// ```
/// use whipsail::{Ending, Number, Panel, Plan, Refusal};
///
/// # fn main() -> Result<(), Refusal> {
/// const TONIGHT: [[u16; 4]; 3] = [
///     Panel { cfu: Number::new(2), ..Panel::UNSET }.numbers(),
///     Panel { cfnr: Number::new(3), unattended: true, ..Panel::UNSET }.numbers(),
///     Panel::UNSET.numbers(),
/// ];
/// let plan = Plan::new(&TONIGHT);
///
/// let told = plan.rehearse(1)?;
/// assert_eq!((told.ending, told.last.get(), told.counter), (Ending::Rings, 3, 2));
///
/// assert_eq!(plan.rehearse(4), Err(Refusal::NotWellMade));
/// # Ok(())
/// # }
/// ```
#[derive(Clone, Copy, Debug, PartialEq, Eq)]
pub struct Plan<'a> {
    numbers: &'a [u16],
}

/// What happens to a call by a plan.
#[derive(Clone, Copy, Debug, PartialEq, Eq)]
pub struct Rehearsal {
    /// How it ends.
    pub ending: Ending,
    /// The number of the panel where it ends.
    pub last: Number,
    /// How often it was forwarded.
    pub counter: u8,
}

impl Rehearsal {
    /// By the definitions a done one names a panel; one that does not would be no
    /// answer, and is none here.
    pub(crate) fn read(told: &raw::Rehearsed) -> Result<Rehearsal, Refusal> {
        match (told.code, Number::new(told.last)) {
            (0, Some(last)) => Ok(Rehearsal {
                ending: Ending::of(told.ending),
                last,
                counter: told.counter,
            }),
            (code, _) => Err(Refusal::of(code)),
        }
    }
}

impl<'a> Plan<'a> {
    /// A plan of panels, each by its [`Panel::numbers`].
    pub fn new(panels: &'a [[u16; 4]]) -> Plan<'a> {
        Plan::of_numbers(panels.as_flattened())
    }

    /// A plan that was kept as plain numbers, four for each panel. Any will do:
    /// what is no plan is refused when it is rehearsed.
    pub const fn of_numbers(numbers: &'a [u16]) -> Plan<'a> {
        Plan { numbers }
    }

    /// What happens to a call that the panel `start` is offered first: a panel
    /// forwards it by `cfu`; else by `cfb` if busy; else by `cfnr` if unattended
    /// and not busy; else the call ends there.
    ///
    /// [`Refusal::NotWellMade`] are no or over 256 panels, a start or a destination
    /// outside the plan, the latter whether or not it is reached, and, of plain
    /// numbers, a mark above 1 or a count that is not four for each panel.
    pub fn rehearse(&self, start: u16) -> Result<Rehearsal, Refusal> {
        Rehearsal::read(&raw::rehearse(self.numbers, start))
    }
}
