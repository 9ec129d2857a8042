//! Document 01's small numbers by name.

/// An enum that stands for numbers, read back by `of`.
macro_rules! numbers {
    ($(#[$said:meta])* $name:ident { $($(#[$each:meta])* $case:ident = $number:literal,)* }) => {
        $(#[$said])*
        #[derive(Clone, Copy, PartialEq, Eq, PartialOrd, Ord, Hash)]
        pub enum $name {
            $($(#[$each])* $case = $number,)*
        }

        impl $name {
            /// The number that stands for it.
            pub const fn number(self) -> u8 {
                self as u8
            }

            /// What a number stands for.
            pub const fn of(number: u8) -> Option<Self> {
                match number {
                    $($number => Some(Self::$case),)*
                    _ => None,
                }
            }
        }
    };
}
pub(crate) use numbers;

/// The same of numbers that the library hands out, to which a later archive may
/// add: one that is not known here is kept as it is.
macro_rules! open_numbers {
    ($(#[$said:meta])* $name:ident { $($(#[$each:meta])* $case:ident = $number:literal,)* }) => {
        $(#[$said])*
        #[derive(Clone, Copy, PartialEq, Eq, PartialOrd, Ord, Hash)]
        #[non_exhaustive]
        pub enum $name {
            $($(#[$each])* $case,)*
            /// A number that this wrapper does not know; `of` makes it of no other.
            Other(u8),
        }

        impl $name {
            /// The number that stands for it.
            pub const fn number(self) -> u8 {
                match self {
                    $(Self::$case => $number,)*
                    Self::Other(number) => number,
                }
            }

            /// What a number stands for.
            pub const fn of(number: u8) -> Self {
                match number {
                    $($number => Self::$case,)*
                    _ => Self::Other(number),
                }
            }
        }
    };
}
pub(crate) use open_numbers;

open_numbers! {
    /// Why a call is diverted. Where a notice has one that is not known, the
    /// caller is told as of `Unknown`; in an event, it is not well made.
    #[derive(Debug)]
    Reason {
        /// Not told.
        Unknown = 0,
        /// Forwarding unconditional.
        Cfu = 1,
        /// Forwarding on busy.
        Cfb = 2,
        /// Forwarding on no reply; also a deflection.
        Cfnr = 3,
    }
}

impl Reason {
    /// In words.
    pub const fn text(self) -> &'static str {
        match self {
            Reason::Unknown => "reason not told",
            Reason::Cfu => "forwarding unconditional",
            Reason::Cfb => "forwarding on busy",
            Reason::Cfnr => "forwarding on no reply",
            Reason::Other(_) => "a reason not known here",
        }
    }
}

numbers! {
    /// The option of a diversion: what the caller may be told of it. A smaller
    /// one is stricter.
    #[derive(Debug)]
    Choice {
        /// Nothing.
        NoNotification = 0,
        /// That the call is diverted, and why.
        WithoutNumber = 1,
        /// The new number too.
        WithNumber = 2,
    }
}

numbers! {
    /// A leg of a call. An incoming call has the first alone. Those of an outgoing
    /// call change their numbers: a leg ends by a [`Message::ReleaseComplete`] that
    /// is sent on it, or by a [`Received::ReleaseComplete`] that came on it, and a
    /// [`Message::Setup`] opens the leg that it bears, in the place of one that has
    /// ended. Where the first has ended and none was opened in its place, the
    /// second is the first from then on. Messages are sent in their order, each on
    /// the leg as it was numbered before the event; [`Kind`] has what each event does.
    ///
    /// [`Message::ReleaseComplete`]: crate::Message::ReleaseComplete
    /// [`Received::ReleaseComplete`]: crate::Received::ReleaseComplete
    /// [`Message::Setup`]: crate::Message::Setup
    /// [`Kind`]: crate::Kind
    #[derive(Debug)]
    Leg {
        /// To [`Call::party`](crate::Call::party).
        One = 1,
        /// To [`Call::forwarded`](crate::Call::forwarded), which a no-reply
        /// diversion tries meanwhile.
        Two = 2,
    }
}

numbers! {
    /// Who made a call.
    #[derive(Debug)]
    Direction {
        /// The station.
        Outgoing = 1,
        /// The far end.
        Incoming = 2,
    }
}

numbers! {
    /// The basic state of a call.
    #[derive(Debug)]
    Basic {
        /// Set up, and not yet ringing.
        Proceeding = 1,
        /// Ringing: Delivered of an outgoing call, Received of an incoming one.
        Ringing = 2,
        /// Answered.
        Active = 3,
    }
}
