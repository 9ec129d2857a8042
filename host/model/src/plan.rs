//! The shift planner's question: which panel rings tonight?

use crate::station::Station;

/// "up to 256 panels"
pub const MOST_PANELS: usize = 256;

/// One panel of a plan: "three destinations (cfu, cfb, cfnr, each possibly
/// absent) and two marks, busy and unattended". Any values may be handed in.
#[derive(Clone, Copy, Debug, Default, PartialEq, Eq, Hash)]
pub struct Panel {
    pub cfu: u16,
    pub cfb: u16,
    pub cfnr: u16,
    pub busy: u16,
    pub unattended: u16,
}

/// "its ending (rings, busy, limit)"
#[derive(Clone, Copy, Debug, PartialEq, Eq, Hash)]
pub enum Ending {
    Rings,
    Busy,
    Limit,
}

impl Ending {
    pub fn name(self) -> &'static str {
        match self {
            Ending::Rings => "rings",
            Ending::Busy => "busy",
            Ending::Limit => "limit",
        }
    }
}

/// Which of its destinations a panel forwards to.
#[derive(Clone, Copy, Debug, PartialEq, Eq, Hash)]
pub enum Forward {
    Cfu,
    Cfb,
    Cfnr,
}

impl Forward {
    pub fn name(self) -> &'static str {
        match self {
            Forward::Cfu => "cfu",
            Forward::Cfb => "cfb",
            Forward::Cfnr => "cfnr",
        }
    }
}

/// "The answer names the last panel, its ending (rings, busy, limit) and the
/// counter".
#[derive(Clone, Debug, PartialEq, Eq, Hash)]
pub struct Rehearsed {
    pub last: u16,
    pub ending: Ending,
    pub counter: u8,
    /// Each panel that forwarded, with its reason, in order.
    pub way: Vec<(u16, Forward)>,
}

/// What a panel does with a call that it is offered.
enum Wish {
    Forward(Forward, u16),
    End(Ending),
}

impl Panel {
    /// "Cfu comes first; then cfb if busy; a busy panel without cfb ends as
    /// busy; then cfnr if unattended; else it rings."
    fn wish(&self) -> Wish {
        if self.cfu != 0 {
            Wish::Forward(Forward::Cfu, self.cfu)
        } else if self.busy != 0 && self.cfb != 0 {
            Wish::Forward(Forward::Cfb, self.cfb)
        } else if self.busy != 0 {
            Wish::End(Ending::Busy)
        } else if self.unattended != 0 && self.cfnr != 0 {
            Wish::Forward(Forward::Cfnr, self.cfnr)
        } else {
            Wish::End(Ending::Rings)
        }
    }

    /// Each destination is absent or in a plan of that many panels, and each
    /// mark is 0 or 1.
    fn fits(&self, panels: usize) -> bool {
        let destinations = [self.cfu, self.cfb, self.cfnr];
        destinations.iter().all(|&to| usize::from(to) <= panels)
            && self.busy <= 1
            && self.unattended <= 1
    }
}

/// "an empty plan, one over 256 panels, or a start or destination outside the
/// plan is 3", and so is a mark above 1. A destination counts whether or not
/// the call would reach it.
fn refused(panels: &[Panel], start: u16) -> bool {
    let count = panels.len();
    !(1..=MOST_PANELS).contains(&count)
        || !(1..=count).contains(&usize::from(start))
        || !panels.iter().all(|panel| panel.fits(count))
}

/// Who will ring when a call is offered to the start panel. "A panel offered a
/// call forwards it, and a forward offers it to the next panel."
pub fn rehearse(panels: &[Panel], start: u16) -> Result<Rehearsed, u8> {
    if refused(panels, start) {
        return Err(3);
    }
    // "The limit is a short-form station's"; "The rehearsal of One takes 5
    // too" (02, Four).
    let limit = Station::short().limit;
    let mut last = start;
    let mut counter = 0;
    let mut way = vec![];
    let ending = loop {
        // "A panel's number is its place, from 1".
        match panels[usize::from(last) - 1].wish() {
            Wish::End(ending) => break ending,
            // "exactly when one more forward would exceed the limit"
            Wish::Forward(..) if counter + 1 > limit => break Ending::Limit,
            Wish::Forward(reason, to) => {
                way.push((last, reason));
                counter += 1;
                last = to;
            }
        }
    };
    Ok(Rehearsed {
        last,
        ending,
        counter,
        way,
    })
}

/// What the program prints: the answer's number, last panel, ending and
/// counter, then the way; `3 - - -` where refused.
pub fn lines(answer: &Result<Rehearsed, u8>) -> String {
    let done = match answer {
        Err(code) => return format!("{code} - - -\n"),
        Ok(done) => done,
    };
    let way: String = done
        .way
        .iter()
        .map(|(panel, reason)| format!("{panel} {} ", reason.name()))
        .collect();
    let (last, ending) = (done.last, done.ending.name());
    format!("0 {last} {ending} {}\n{way}{last}\n", done.counter)
}

/// Reads a plan: the start panel's number in the first line, then a line
/// `cfu cfb cfnr busy unattended` for each panel. A text that is no plan
/// gives the number of its first faulty line, from 1.
pub fn text(input: &[u8]) -> Result<(Vec<Panel>, u16), usize> {
    // The newline of the last line may be missing.
    let input = input.strip_suffix(b"\n").unwrap_or(input);
    let mut start = 0;
    let mut panels = vec![];
    for (at, line) in input.split(|&byte| byte == b'\n').enumerate() {
        let numbers: Option<Vec<u16>> = line.split(|&byte| byte == b' ').map(number).collect();
        match (at, numbers.as_deref()) {
            (0, Some(&[first])) => start = first,
            (1.., Some(&[cfu, cfb, cfnr, busy, unattended])) => panels.push(Panel {
                cfu,
                cfb,
                cfnr,
                busy,
                unattended,
            }),
            _ => return Err(at + 1),
        }
    }
    Ok((panels, start))
}

/// One or more digits of at most 65,535; leading zeros are fine.
fn number(digits: &[u8]) -> Option<u16> {
    if digits.is_empty() {
        return None;
    }
    digits.iter().try_fold(0_u16, |value, digit| {
        let digit = digit.is_ascii_digit().then(|| u16::from(digit - b'0'))?;
        value.checked_mul(10)?.checked_add(digit)
    })
}

/// The text that `text` reads back as this plan.
pub fn write(panels: &[Panel], start: u16) -> String {
    let mut text = format!("{start}\n");
    for panel in panels {
        let Panel {
            cfu,
            cfb,
            cfnr,
            busy,
            unattended,
        } = panel;
        text.push_str(&format!("{cfu} {cfb} {cfnr} {busy} {unattended}\n"));
    }
    text
}
