//! Why an event, a limit or a plan is refused.

use crate::code::open_numbers;
use core::{error, fmt};

open_numbers! {
    /// Why an event is refused, in the order in which it is tested. Its text
    /// says what to do; table and station are as they were, also where it is one
    /// that is not known here.
    ///
    /// Earlier archives had 5, `NotInState`, where 10 and 11 stand: it was split, and is no
    /// longer given. A host names both in its place,
    ///
    /// ```
    /// # use whipsail::Refusal;
    /// fn is_dropped(refusal: Refusal) -> bool {
    ///     matches!(refusal, Refusal::NotInBasicState | Refusal::NotInServiceState)
    /// }
    /// # assert!(is_dropped(Refusal::of(10)) && is_dropped(Refusal::of(11)));
    /// # assert_eq!(Refusal::of(5), Refusal::Other(5));
    /// ```
    ///
    /// and one that has the old name does not compile:
    ///
    /// ```compile_fail,E0599
    /// # use whipsail::Refusal;
    /// fn is_dropped(refusal: Refusal) -> bool {
    ///     matches!(refusal, Refusal::NotInState)
    /// }
    /// ```
    Refusal {
        /// The table is empty, over 64 records or not sound, or the station is not:
        /// its limit is not 1 to 15, its next identifier is 0
        /// ([`Station::kept`](crate::Station::kept) says when), or what it holds of
        /// requests to other panels is damaged.
        NotSound = 1,
        /// The event's time is before that of the last done event.
        TimeBefore = 2,
        /// The event's kind or a field is wrong, or a fresh station's limit, or a
        /// plan or its start.
        NotWellMade = 3,
        /// The call is past the table's end, free, or of the other direction.
        NoSuchCall = 4,
        /// Too early or too late: no call in this basic state
        /// ([`Call::basic`](crate::Call::basic)) takes the event, however its
        /// diversion stands. So `Alerted` once it rings, `LegFailed` before that, `Result`
        /// once it is answered, `Divert` for the reason of another state; a FACILITY on
        /// leg 2 in every state.
        NotInBasicState = 10,
        /// The basic state takes the event, but the call's diversion does not: already
        /// asked or already granted (`Divert`), being diverted away by cfu or cfb
        /// (`Alerted`, `Answered`), no request open (`Result`, `Error`) or no cfnr granted
        /// (`LegFailed`), no forwarded leg (leg 2), no diversion told yet (FACILITY). Of an
        /// answer from another panel: no request of its sort is pending. What an open
        /// request forbids may be taken after it.
        NotInServiceState = 11,
        /// A result or error is not that of the call's open request, or of the pending
        /// one of its sort.
        OtherIdentifier = 6,
        /// One more diversion would exceed the station's limit.
        OverLimit = 7,
        /// An open found no free record.
        TableFull = 8,
        /// Another panel is to be asked while a request of the same sort is pending.
        AlreadyAsked = 9,
    }
}

impl Refusal {
    /// Why, and what to do.
    pub const fn text(self) -> &'static str {
        match self {
            Refusal::NotSound => {
                "table or station is not sound: lend 1 to 64 records as the engine left them, or start again with free ones and a fresh station"
            }
            Refusal::TimeBefore => {
                "the time is before that of the last done event: hand events over in the order of their times"
            }
            Refusal::NotWellMade => {
                "a field is outside its range or not used by this kind (a limit: 1 to 15; a mark: 0 or 1; a plan: 1 to 256 panels, with start and destinations among them): correct what makes it"
            }
            Refusal::NoSuchCall => {
                "no such call: past the table's end, free, or of the other direction; look up which record is meant"
            }
            Refusal::NotInBasicState => {
                "too early or too late: no call in this state (not yet ringing, ringing or answered) takes this event, and none ever a FACILITY on leg 2: look at the record, and drop the event"
            }
            Refusal::NotInServiceState => {
                "the call's state fits, but its diversion (already asked, already granted, being diverted away, no request open or granted, no forwarded leg, no diversion told yet) does not, or no request of this sort is pending: look at the record or the station, and drop the event"
            }
            Refusal::OtherIdentifier => {
                "not the identifier of the call's open request, or of the pending one of this sort: drop this late or foreign answer"
            }
            Refusal::OverLimit => {
                "one diversion more than the limit: do not divert; let the call ring or end it"
            }
            Refusal::TableFull => {
                "no record is free: turn the call down, or lend a longer table (up to 64 records)"
            }
            Refusal::AlreadyAsked => {
                "a request of this sort is pending: wait for its answer, or for the clock event that ends it"
            }
            Refusal::Other(_) => {
                "a refusal of another archive, not known here: nothing has changed; drop the event, and report the number"
            }
        }
    }
}

impl fmt::Display for Refusal {
    fn fmt(&self, f: &mut fmt::Formatter<'_>) -> fmt::Result {
        write!(f, "{}: {}", self.number(), self.text())
    }
}

/// The text too, as `?` in a `main` shows what `Debug` prints.
impl fmt::Debug for Refusal {
    fn fmt(&self, f: &mut fmt::Formatter<'_>) -> fmt::Result {
        fmt::Display::fmt(self, f)
    }
}

impl error::Error for Refusal {}
