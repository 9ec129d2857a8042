//! What the station answers to one event.

use std::fmt;

/// A message to send, with every argument as a plain number; an argument that
/// the message does not have is 0.
#[derive(Clone, Copy, Debug, PartialEq, Eq, Hash)]
pub struct Message {
    /// A ALERTING, C CONNECT, D CONNECT with DLI3, I callRerouting invoke,
    /// R result, E error, X RELEASE COMPLETE, S SETUP with DLI2,
    /// F cfnrDivertedLegFailed; of document 02, Seven, the invokes of
    /// a activation, d deactivation, i interrogation, c check, and r result,
    /// e error.
    pub letter: char,
    /// 0 of a small letter.
    pub leg: u8,
    /// I, S; a, d, i: the type.
    pub reason: u8,
    /// I.
    pub option: u8,
    /// I, S.
    pub counter: u8,
    /// D: 1 presentation allowed.
    pub flag: u8,
    /// I, R, E and every small letter.
    pub identifier: u16,
    /// I, a: where to divert; S: the called party; r of an interrogation: the
    /// kept destination.
    pub destination: u16,
    /// I: the last rerouting number; S: the diverting number.
    pub diverting: u16,
    /// I, S: the original called number.
    pub original: u16,
    /// D: the own number, if allowed; a, d, i, c: the far panel.
    pub number: u16,
}

impl Message {
    /// A message without arguments.
    pub fn plain(letter: char, leg: u8) -> Message {
        Message {
            letter,
            leg,
            reason: 0,
            option: 0,
            counter: 0,
            flag: 0,
            identifier: 0,
            destination: 0,
            diverting: 0,
            original: 0,
            number: 0,
        }
    }

    /// A result (R) or error (E): "Results and errors echo the identifier."
    pub fn echo(letter: char, leg: u8, identifier: u16) -> Message {
        Message {
            identifier,
            ..Message::plain(letter, leg)
        }
    }
}

/// The answer to one event. "None" is not 0: call 0, notice 0 (reason
/// unknown) and identifier 0 are values.
#[derive(Clone, Debug, Default, PartialEq, Eq, Hash)]
pub struct Answer {
    /// 0 done, 1 to 4 and 6 to 11 refused: "5 is no longer given" (02, Eight).
    pub code: u8,
    pub call: Option<u8>,
    pub messages: Vec<Message>,
    /// The reason told to the caller.
    pub notice: Option<u8>,
    /// The number shown to the caller.
    pub number: Option<u16>,
    pub identifier: Option<u16>,
    pub counter: Option<u8>,
}

impl Answer {
    /// "A refusal's answer is its number and otherwise empty".
    pub fn refused(code: u8) -> Answer {
        Answer {
            code,
            ..Answer::default()
        }
    }

    /// A done event about a call, with its messages. "an identifier and
    /// counter where a message has them": I, R, E and I, S.
    pub fn done(call: u8, messages: Vec<Message>) -> Answer {
        let with_identifier = messages.iter().find(|m| "IRE".contains(m.letter));
        let with_counter = messages.iter().find(|m| "IS".contains(m.letter));
        Answer {
            code: 0,
            call: Some(call),
            identifier: with_identifier.map(|m| m.identifier),
            counter: with_counter.map(|m| m.counter),
            notice: None,
            number: None,
            messages,
        }
    }

    /// A done event of document 02, Seven, which names no call: "Answers echo
    /// the identifier", and our own invokes have one.
    pub fn without_call(message: Message) -> Answer {
        Answer {
            identifier: Some(message.identifier),
            messages: vec![message],
            ..Answer::default()
        }
    }

    /// The line of the panel printout for the event at this position.
    pub fn line(&self, position: usize) -> String {
        format!("{position} {self}")
    }
}

fn or_dash<T: ToString>(value: Option<T>) -> String {
    value.map_or_else(|| "-".to_string(), |value| value.to_string())
}

/// The printout's line without its position.
impl fmt::Display for Answer {
    fn fmt(&self, f: &mut fmt::Formatter<'_>) -> fmt::Result {
        write!(
            f,
            "{} {} {} {} {} {} ",
            self.code,
            or_dash(self.call),
            or_dash(self.notice),
            or_dash(self.number),
            or_dash(self.identifier),
            or_dash(self.counter)
        )?;
        if self.messages.is_empty() {
            return f.write_str("-");
        }
        self.messages.iter().try_for_each(|message| {
            // "a, d, i, c for the invokes, r and e for answers, no leg"
            match message.letter.is_ascii_lowercase() {
                true => write!(f, "{}", message.letter),
                false => write!(f, "{}{}", message.letter, message.leg),
            }
        })
    }
}
