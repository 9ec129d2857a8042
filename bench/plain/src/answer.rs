//! What one event answers.

#[derive(Clone, Copy, Debug, Default, PartialEq)]
#[repr(C)]
pub struct Message {
    pub letter: u8,
    pub leg: u8,
    pub reason: u8,
    pub option: u8,
    pub counter: u8,
    pub flag: u8,
    pub identifier: u16,
    pub destination: u16,
    pub diverting: u16,
    pub original: u16,
    pub number: u16,
}

/// None is 255 for call and notice, 65536 for the identifier, else 0.
#[derive(Clone, Copy, Debug, PartialEq)]
#[repr(C)]
pub struct Answer {
    pub code: u8,
    pub call: u8,
    pub sent: [Message; 3],
    pub notice: u8,
    pub number: u16,
    pub identifier: u32,
    pub counter: u8,
}

impl Answer {
    #[inline(always)]
    pub fn refused(code: u8) -> Answer {
        Answer {
            code,
            call: 255,
            sent: [Message::default(); 3],
            notice: 255,
            number: 0,
            identifier: 65536,
            counter: 0,
        }
    }

    #[inline(always)]
    pub fn done(call: u8) -> Answer {
        Answer {
            call,
            ..Answer::refused(0)
        }
    }

    #[inline(always)]
    pub fn sending(call: u8, first: Message) -> Answer {
        let mut answer = Answer::done(call);
        answer.sent[0] = first;
        answer
    }
}

#[inline(always)]
pub fn bare(letter: u8, leg: u8) -> Message {
    Message {
        letter,
        leg,
        ..Message::default()
    }
}

/// A result or an error.
#[inline(always)]
pub fn echo(letter: u8, leg: u8, identifier: u16) -> Message {
    Message {
        identifier,
        ..bare(letter, leg)
    }
}
