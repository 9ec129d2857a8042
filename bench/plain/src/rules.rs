//! What an event does to the call that it names.

use crate::answer::{bare, echo, Answer, Message};
use crate::call::*;
use crate::event::Event;

impl Call {
    #[inline(always)]
    pub fn end_request(&mut self) {
        self.cds = 0;
        self.granted = 0;
        self.reason = 0;
        self.identifier = 0;
        self.start = 0;
    }

    /// Requested or granted, with cfu or cfb.
    #[inline(always)]
    fn leaving(&self) -> bool {
        (self.cds == 1 || self.granted == 1) && self.reason < CFNR
    }

    #[inline(always)]
    pub fn alerted(&mut self, e: &Event) -> Answer {
        if self.basic != PROCEEDING {
            return Answer::refused(10);
        }
        if self.leaving() {
            return Answer::refused(11);
        }
        self.basic = RINGING;
        Answer::sending(e.call, bare(b'A', 1))
    }

    #[inline(always)]
    pub fn answered(&mut self, e: &Event) -> Answer {
        if self.basic == ACTIVE {
            return Answer::refused(10);
        }
        if self.leaving() {
            return Answer::refused(11);
        }
        self.end_request();
        self.basic = ACTIVE;
        if self.cdf != WAIT {
            return Answer::sending(e.call, bare(b'C', 1));
        }
        self.cdf = DONE;
        let connect = Message {
            flag: e.flag,
            number: if e.flag == 1 { self.own } else { 0 },
            ..bare(b'D', 1)
        };
        Answer::sending(e.call, connect)
    }

    /// Ends the request that the event bears, if it is this call's; hands back
    /// its reason, or the number of the refusal.
    #[inline(always)]
    fn settled_by(&mut self, e: &Event) -> Result<u8, u8> {
        if self.basic == ACTIVE {
            return Err(10);
        }
        if self.cds == 0 {
            return Err(11);
        }
        if self.identifier != e.identifier {
            return Err(6);
        }
        let reason = self.reason;
        self.end_request();
        Ok(reason)
    }

    #[inline(always)]
    pub fn granted_by(&mut self, e: &Event) -> Answer {
        match self.settled_by(e) {
            Ok(reason) => {
                self.granted = 1;
                self.reason = reason;
                Answer::done(e.call)
            }
            Err(code) => Answer::refused(code),
        }
    }

    #[inline(always)]
    pub fn turned_down_by(&mut self, e: &Event) -> Answer {
        match self.settled_by(e) {
            Ok(_) => Answer::done(e.call),
            Err(code) => Answer::refused(code),
        }
    }

    #[inline(always)]
    pub fn leg_failed(&mut self, e: &Event) -> Answer {
        if self.basic != RINGING {
            return Answer::refused(10);
        }
        if self.granted == 0 || self.reason != CFNR {
            return Answer::refused(11);
        }
        self.end_request();
        Answer::done(e.call)
    }

    #[inline(always)]
    pub fn ended(&mut self, e: &Event) -> Answer {
        let mut answer = Answer::sending(e.call, bare(b'X', 1));
        if self.cdr == 1 {
            answer.sent[1] = bare(b'X', 2);
        }
        *self = Call::default();
        answer
    }

    /// The far end has ended it.
    #[inline(always)]
    pub fn left(&mut self, e: &Event) -> Answer {
        *self = Call::default();
        Answer::done(e.call)
    }

    #[inline(always)]
    pub fn informed(&mut self, e: &Event) -> Answer {
        if self.basic == ACTIVE {
            return Answer::refused(10);
        }
        Answer {
            notice: self.dli1(waiting(e)),
            ..Answer::done(e.call)
        }
    }

    #[inline(always)]
    pub fn rerouted(&mut self, e: &Event) -> Answer {
        let no_reply = e.reason == CFNR;
        let not_taken = match (self.cdr, e.leg) {
            (0, 2) => return Answer::refused(if self.basic == RINGING { 11 } else { 10 }),
            (0, _) => self.basic == ACTIVE || (no_reply && self.basic != RINGING),
            (_, leg) => leg == 1 || no_reply || usize::from(self.count) >= LATER,
        };
        let mut answer = Answer {
            identifier: u32::from(e.identifier),
            ..Answer::done(e.call)
        };
        if not_taken {
            answer.sent[0] = echo(b'E', e.leg, e.identifier);
            return answer;
        }
        answer.counter = e.counter;
        answer.sent[0] = echo(b'R', e.leg, e.identifier);
        if no_reply {
            answer.sent[1] = setup(e, 2, self.party);
            self.cdr = 1;
            self.first = waiting(e);
            return answer;
        }
        answer.sent[1] = bare(b'X', e.leg);
        if e.leg == 2 {
            answer.sent[2] = setup(e, 2, self.leg_2());
            self.later[usize::from(self.count)] = waiting(e);
            self.count += 1;
        } else {
            answer.sent[2] = setup(e, 1, self.party);
            self.party = e.second;
            self.basic = PROCEEDING;
            answer.notice = self.dli1(waiting(e));
        }
        answer
    }

    /// The party on leg 2: the last number that waits.
    #[inline(always)]
    fn leg_2(&self) -> u16 {
        match self.count {
            0 => self.first.number,
            count => self.later[usize::from(count) - 1].number,
        }
    }

    /// A DLI1 to the CDO; hands back the notice.
    #[inline(always)]
    fn dli1(&mut self, told: Dli1) -> u8 {
        let Dli1 {
            reason,
            option,
            number,
        } = told;
        let first = self.seen == 0;
        if first || option < self.strictest {
            self.strictest = option;
        }
        if reason == CFNR {
            self.shown = 0;
        }
        self.seen = 1;
        self.cdo = 1;
        self.nominated = number;
        if self.strictest != 0 && (first || reason == CFNR) {
            reason
        } else {
            255
        }
    }

    /// A DLI3 in Divert; hands back the number shown, or 0.
    #[inline(always)]
    fn dli3(&mut self, flag: u8, number: u16) -> u16 {
        if flag == 0 || self.cdo == 0 {
            return 0;
        }
        if flag == 2 {
            self.forbidden = 1;
        }
        if self.strictest != 2 || self.forbidden == 1 || self.shown == 1 {
            return 0;
        }
        self.shown = 1;
        if number == 0 {
            self.nominated
        } else {
            number
        }
    }

    #[inline(always)]
    fn drop_leg_2(&mut self) {
        self.cdr = 0;
        self.first = Dli1::default();
        self.count = 0;
        self.later = [Dli1::default(); LATER];
    }

    /// Leg 2 becomes leg 1, and all that wait reach the CDO; hands back the notice,
    /// which the first alone can give.
    #[inline(always)]
    fn take_over(&mut self) -> u8 {
        self.party = self.leg_2();
        let notice = self.dli1(self.first);
        for at in 0..usize::from(self.count) {
            self.dli1(self.later[at]);
        }
        self.drop_leg_2();
        notice
    }

    #[inline(always)]
    pub fn message(&mut self, e: &Event) -> Answer {
        let invoked = self.cdr == 1;
        if e.leg == 2 && (e.message == 1 || self.basic != RINGING)
            || e.leg == 1 && self.basic == ACTIVE && e.message != 4
        {
            return Answer::refused(10);
        }
        if (e.leg == 2 && !invoked) || (e.message == 1 && self.cdo == 0) {
            return Answer::refused(11);
        }
        let mut answer = Answer::done(e.call);
        if e.message == 4 {
            if !invoked {
                *self = Call::default();
            } else if e.leg == 2 {
                answer.sent[0] = bare(b'F', 1);
                self.drop_leg_2();
            } else {
                answer.notice = self.take_over();
                self.basic = PROCEEDING;
            }
            return answer;
        }
        if invoked && e.leg == 2 {
            answer.sent[0] = bare(b'X', 1);
            answer.notice = self.take_over();
        } else if invoked && e.message == 3 {
            answer.sent[0] = bare(b'X', 2);
            self.drop_leg_2();
        }
        answer.number = self.dli3(e.flag, e.second);
        match e.message {
            2 => self.basic = RINGING,
            3 => {
                self.basic = ACTIVE;
                self.cdo = 0;
            }
            _ => {}
        }
        answer
    }
}

/// What the event tells of a diversion.
#[inline(always)]
fn waiting(e: &Event) -> Dli1 {
    Dli1 {
        reason: e.reason,
        option: e.option,
        number: e.second,
    }
}

#[inline(always)]
fn setup(e: &Event, leg: u8, diverting: u16) -> Message {
    Message {
        reason: e.reason,
        counter: e.counter,
        destination: e.second,
        diverting,
        original: e.third,
        ..bare(b'S', leg)
    }
}
