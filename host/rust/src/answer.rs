//! What a done event gives.

use crate::{raw, words, Ask, Choice, Leg, Number, Reason, Refusal, Sort};

/// The answer to a done event.
#[derive(Clone, Copy, Debug, PartialEq, Eq)]
pub struct Answer {
    /// The place of the record that the event was about; of an open, the one it
    /// took. It is `Some` in every done answer but those of the kinds that name no
    /// call, from [`Kind::Ask`](crate::Kind::Ask) on, and of a clock event that has ended
    /// no call's request.
    pub call: Option<u8>,
    /// The messages to send, in this order; `None` past the last one.
    pub sent: [Option<Message>; 3],
    /// The reason to tell the caller: the call is diverted.
    pub notice: Option<Reason>,
    /// The number to show to the caller.
    pub number: Option<Number>,
    /// The identifier of a message that is sent, or of a request that a clock
    /// event has ended, a call's or one to another panel. It is 0 only where an invoke
    /// that bears 0 is answered.
    pub identifier: Option<u16>,
    /// The counter of a message that is sent.
    pub counter: Option<u8>,
}

/// A message as plain numbers: those of [`Message::Other`].
pub use crate::raw::Message as PlainMessage;

/// A message to send with its arguments, on its leg as that was numbered before
/// the event; which connection is which leg afterwards says [`Leg`].
#[derive(Clone, Copy, Debug, PartialEq, Eq)]
#[non_exhaustive]
#[allow(missing_docs)] // fields that are named by what they hold
pub enum Message {
    /// ALERTING.
    Alerting { leg: Leg },
    /// CONNECT.
    Connect { leg: Leg },
    /// CONNECT with divertingLegInformation3: the own number, if it may be shown.
    ConnectDli3 {
        leg: Leg,
        allowed: bool,
        number: Option<Number>,
    },
    /// The callRerouting invoke, which asks the far end to divert the call to
    /// its destination. The counter has this diversion in it; `last` is the last
    /// rerouting number, which is the own one.
    Invoke {
        leg: Leg,
        reason: Reason,
        option: Choice,
        counter: u8,
        identifier: u16,
        destination: Number,
        last: Number,
        original: Option<Number>,
    },
    /// The return result of the callRerouting invoke with this identifier.
    Result { leg: Leg, identifier: u16 },
    /// Its return error.
    Error { leg: Leg, identifier: u16 },
    /// RELEASE COMPLETE, which ends the leg.
    ReleaseComplete { leg: Leg },
    /// SETUP with divertingLegInformation2 to the destination, on a connection of
    /// its own: it is the leg that is named, from now on. Messages before it that bear
    /// the same leg go on the connection that was that leg until then.
    Setup {
        leg: Leg,
        reason: Reason,
        counter: u8,
        destination: Number,
        diverting: Number,
        original: Option<Number>,
    },
    /// cfnrDivertedLegFailed.
    LegFailed { leg: Leg },
    /// An invoke to another panel ([`Ask`]). This and the next two belong to no call and
    /// have no leg: it goes to its panel on a connection of its own.
    Ask {
        panel: Number,
        identifier: u16,
        ask: Ask,
    },
    /// The return result of such an invoke that was received, on the connection on which
    /// that came; to an interrogation with the destination that is kept.
    RemoteResult {
        identifier: u16,
        destination: Option<Number>,
    },
    /// Its return error.
    RemoteError { identifier: u16 },
    /// One that this wrapper does not know, or not with these arguments, of a later
    /// archive. A host sends nothing in its place, sends the others, and reports
    /// the letter: what it leaves out, the far end waits for.
    Other(PlainMessage),
}

impl Answer {
    /// The messages to send, in order.
    pub fn messages(&self) -> impl Iterator<Item = Message> {
        self.sent.into_iter().flatten()
    }

    /// What any code but that of a done event says is a refusal.
    pub(crate) fn read(a: &raw::Answer) -> Result<Answer, Refusal> {
        if a.code != 0 {
            return Err(Refusal::of(a.code));
        }
        Ok(Answer {
            call: (a.call != 255).then_some(a.call),
            sent: a.sent.map(|message| Message::read(&message)),
            notice: (a.notice != 255).then(|| Reason::of(a.notice)),
            number: Number::new(a.number),
            identifier: u16::try_from(a.identifier).ok(),
            counter: (a.counter != 0).then_some(a.counter),
        })
    }
}

impl Message {
    /// The letter of the panel printout.
    pub const fn letter(&self) -> char {
        match self {
            Message::Alerting { .. } => 'A',
            Message::Connect { .. } => 'C',
            Message::ConnectDli3 { .. } => 'D',
            Message::Invoke { .. } => 'I',
            Message::Result { .. } => 'R',
            Message::Error { .. } => 'E',
            Message::ReleaseComplete { .. } => 'X',
            Message::Setup { .. } => 'S',
            Message::LegFailed { .. } => 'F',
            Message::Ask { ask, .. } => ask.sort().letter(),
            Message::RemoteResult { .. } => 'r',
            Message::RemoteError { .. } => 'e',
            Message::Other(message) => message.letter as char,
        }
    }

    /// In words.
    pub const fn text(&self) -> &'static str {
        words::letter(self.letter() as u8)
    }

    /// The leg to send it on; none of what belongs to no call, and of [`Message::Other`]
    /// where its number is that of no leg.
    pub const fn leg(&self) -> Option<Leg> {
        Some(match *self {
            Message::Alerting { leg }
            | Message::Connect { leg }
            | Message::ConnectDli3 { leg, .. }
            | Message::Invoke { leg, .. }
            | Message::Result { leg, .. }
            | Message::Error { leg, .. }
            | Message::ReleaseComplete { leg }
            | Message::Setup { leg, .. }
            | Message::LegFailed { leg } => leg,
            Message::Ask { .. } | Message::RemoteResult { .. } | Message::RemoteError { .. } => {
                return None
            }
            Message::Other(message) => return Leg::of(message.leg),
        })
    }

    /// None of letter 0.
    pub(crate) fn read(m: &raw::Message) -> Option<Message> {
        let sent = m.letter != 0;
        sent.then(|| Message::known(m).unwrap_or(Message::Other(*m)))
    }

    /// By the definitions the engine sends these letters alone, and no leg, option
    /// or number that is not one.
    fn known(m: &raw::Message) -> Option<Message> {
        match m.leg {
            0 => Message::of_no_call(m),
            _ => Message::of_a_call(m),
        }
    }

    fn of_no_call(m: &raw::Message) -> Option<Message> {
        let identifier = m.identifier;
        let ask = |sort| {
            Some(Message::Ask {
                panel: Number::new(m.number)?,
                identifier,
                ask: Ask::of(sort, m.reason, m.destination)?,
            })
        };
        Some(match m.letter {
            b'a' => ask(Sort::Activation)?,
            b'd' => ask(Sort::Deactivation)?,
            b'i' => ask(Sort::Interrogation)?,
            b'c' => ask(Sort::Check)?,
            b'r' => Message::RemoteResult {
                identifier,
                destination: Number::new(m.destination),
            },
            b'e' => Message::RemoteError { identifier },
            _ => return None,
        })
    }

    fn of_a_call(m: &raw::Message) -> Option<Message> {
        let leg = Leg::of(m.leg)?;
        let identifier = m.identifier;
        Some(match m.letter {
            b'A' => Message::Alerting { leg },
            b'C' => Message::Connect { leg },
            b'D' => Message::ConnectDli3 {
                leg,
                allowed: m.flag == 1,
                number: Number::new(m.number),
            },
            b'I' => Message::Invoke {
                leg,
                reason: Reason::of(m.reason),
                option: Choice::of(m.option)?,
                counter: m.counter,
                identifier,
                destination: Number::new(m.destination)?,
                last: Number::new(m.diverting)?,
                original: Number::new(m.original),
            },
            b'R' => Message::Result { leg, identifier },
            b'E' => Message::Error { leg, identifier },
            b'X' => Message::ReleaseComplete { leg },
            b'S' => Message::Setup {
                leg,
                reason: Reason::of(m.reason),
                counter: m.counter,
                destination: Number::new(m.destination)?,
                diverting: Number::new(m.diverting)?,
                original: Number::new(m.original),
            },
            b'F' => Message::LegFailed { leg },
            _ => return None,
        })
    }
}
