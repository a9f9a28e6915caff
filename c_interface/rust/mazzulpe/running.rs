//! Whole calls: a transaction to its end, and a redo, over a function that carries wires.

use super::{
    BAD_ARGUMENT, DC_DOWN, DEPOSED, DIVERGED, LOG_FAILED, NOT_DOWN, NOTHING_OPEN, News, Next, OLD_NEWS, Receipt, Refusal, Reply,
    Said, Tc, Value, Wire, call,
};

/// What became of a wire.
#[derive(Clone, Copy, Debug)]
pub enum Carried {
    /// No reply came.
    Lost,
    Replied(Reply),
    /// The data component restarted, and didn't perform the wire.
    Restarted(News),
    /// It serves another session than the wire's, and didn't perform it: [`DEPOSED`].
    Retired,
    /// Your log failed, so that the wire wasn't carried: [`LOG_FAILED`].
    Unwritten,
}

/// Where [`Tc::run`] stopped. Nothing is given up: behind `Waits` and `Down` wait a while, behind `Undoing` longer each
/// time, and run it again.
#[derive(Clone, Copy, Debug, PartialEq, Eq)]
pub enum Ran<End = Receipt> {
    Over(End),
    /// Nobody answered; or the request was given up, and [`Tc::retake`] takes it up.
    Waits,
    /// Its data component is down, and a wire of its redo wasn't answered.
    Down,
    /// What undoes a write wasn't answered, or found no room.
    Undoing,
    /// It found no room under four numbers, of which this is the last.
    Stuck(u64),
}

/// What a refused reply says that doesn't come otherwise if it is asked for once more.
fn unless_final(taken: Result<(), Refusal>) -> Result<bool, Refusal> {
    match taken {
        Err(refusal @ (DIVERGED | DEPOSED)) => Err(refusal),
        taken => Ok(taken.is_ok()),
    }
}

/// What became of the open request, which undoes a write perhaps.
struct Open {
    undoes: bool,
    said: Option<Said>,
}

impl Tc {
    /// Hears news of a restart, one of those that may be heard of. News that were known are nothing.
    fn hear(&mut self, dc: u16, news: News, restarts: &mut u32) -> Result<(), Refusal> {
        match self.told(dc, news) {
            Ok(()) => {
                *restarts -= 1;
                Ok(())
            }
            Err(OLD_NEWS) => Ok(()),
            Err(refusal) => Err(refusal),
        }
    }

    /// Kept in mind as a reply that says Old.
    pub(super) fn retired(&mut self, wire: &Wire) -> Refusal {
        let reply = Reply { number: wire.number, incarnation: wire.incarnation, said: Said::Old };
        self.handle.refused_as(wire.op.record().dc, &reply)
    }

    fn redo_within(
        &mut self,
        dc: u16,
        tries: u32,
        restarts: &mut u32,
        carry: &mut impl FnMut(&Wire) -> Carried,
    ) -> Result<bool, Refusal> {
        let (mut left, mut before) = (tries, None);
        while let Some(wire) = self.redo_next(dc)? {
            if before != Some((wire.number, wire.incarnation)) {
                left = tries;
            }
            if left == 0 || *restarts == 0 {
                return Ok(false);
            }
            left -= 1;
            before = Some((wire.number, wire.incarnation));
            match carry(&wire) {
                Carried::Lost => {}
                Carried::Replied(reply) => {
                    unless_final(self.redone(dc, &reply))?;
                }
                Carried::Restarted(news) => self.hear(dc, news, restarts)?,
                Carried::Retired => return Err(self.retired(&wire)),
                Carried::Unwritten => return Err(LOG_FAILED),
            }
        }
        Ok(true)
    }

    /// Redoes what a data component that is down has lost; whether it is up behind this. Each wire is carried `tries`
    /// times at most, and so many restarts are heard of at most.
    pub fn redo(&mut self, dc: u16, tries: u32, mut carry: impl FnMut(&Wire) -> Carried) -> Result<bool, Refusal> {
        if tries == 0 {
            return Err(BAD_ARGUMENT);
        }
        self.redo_within(dc, tries, &mut { tries }, &mut carry)
    }

    /// The wire of the request that is kept, behind the redo of its data component where that is down.
    fn renew(
        &mut self,
        txn: u64,
        tries: u32,
        restarts: &mut u32,
        carry: &mut impl FnMut(&Wire) -> Carried,
    ) -> Result<Wire, Refusal> {
        match self.resend(txn) {
            Err(DC_DOWN) if *restarts > 0 => {}
            wire => return wire,
        }
        if let Next::Down(record) = self.retake(txn)? {
            match self.redo_within(record.dc, tries, restarts, carry) {
                Ok(_) | Err(NOT_DOWN) => {}
                Err(refusal) => return Err(refusal),
            }
        }
        self.resend(txn)
    }

    /// Carries the open request, and what is said to it, if it is answered. [`DC_DOWN`]: its data component is down.
    fn carry_open(
        &mut self,
        txn: u64,
        made: Option<Wire>,
        tries: u32,
        carry: &mut impl FnMut(&Wire) -> Carried,
    ) -> Result<Open, Refusal> {
        let mut restarts = tries;
        let mut wire = match made {
            Some(wire) => wire,
            None => self.renew(txn, tries, &mut restarts, carry)?,
        };
        for _ in 0..tries {
            match carry(&wire) {
                Carried::Replied(reply) => {
                    if unless_final(self.answer(txn, &reply))? {
                        return Ok(Open { undoes: wire.undoes, said: Some(reply.said) });
                    }
                }
                Carried::Restarted(news) => self.hear(wire.op.record().dc, news, &mut restarts)?,
                Carried::Retired => return Err(self.retired(&wire)),
                Carried::Unwritten => return Err(LOG_FAILED),
                Carried::Lost => {}
            }
            wire = self.renew(txn, tries, &mut restarts, carry)?;
        }
        Ok(Open { undoes: wire.undoes, said: None })
    }

    /// Runs an admitted transaction until it ends or nobody answers. Each wire is carried `tries` times at most; a data
    /// component that is down, or says that it restarted, is redone, and while one request waits so many restarts are
    /// heard of at most. [`DIVERGED`] and [`DEPOSED`] as [`Tc::answer`] and [`Tc::redone`]: the request stays open.
    pub fn run(&mut self, txn: u64, tries: u32, carry: impl FnMut(&Wire) -> Carried) -> Result<Ran, Refusal> {
        Ok(match self.run_until_over(txn, tries, carry)? {
            Ran::Over(()) => Ran::Over(self.end(txn)?),
            Ran::Waits => Ran::Waits,
            Ran::Down => Ran::Down,
            Ran::Undoing => Ran::Undoing,
            Ran::Stuck(number) => Ran::Stuck(number),
        })
    }

    /// What access slot number `slot`, from 0, of an open transaction holds once its run has ended, until [`Tc::end`];
    /// `None` where no record is there.
    pub fn result(&mut self, txn: u64, slot: u64) -> Result<Option<Value>, Refusal> {
        (self.frame().txn, self.frame().place) = (txn, slot);
        self.handle.call(call::RESULT)?;
        let f = self.frame();
        Ok((f.word == 1).then_some(f.value))
    }

    /// As [`Tc::run`], but doesn't end it: behind `Over` [`Tc::result`] says what its slots hold, and [`Tc::end`] ends it.
    pub fn run_until_over(
        &mut self,
        txn: u64,
        tries: u32,
        mut carry: impl FnMut(&Wire) -> Carried,
    ) -> Result<Ran<()>, Refusal> {
        if tries == 0 {
            return Err(BAD_ARGUMENT);
        }
        let (mut undoing, mut full) = (false, false);
        loop {
            let made = match if undoing { self.undo(txn)? } else { self.ask(txn)? } {
                Next::Request(wire) => Some(wire),
                Next::Down(_) | Next::Waits(_) => None,
                Next::Undoing if full => return Ok(Ran::Undoing),
                Next::Undoing | Next::Running => {
                    undoing = !undoing;
                    continue;
                }
                Next::Over => return Ok(Ran::Over(())),
                Next::Stuck(number) => return Ok(Ran::Stuck(number)),
            };
            match self.carry_open(txn, made, tries, &mut carry) {
                Ok(Open { undoes, said: Some(said) }) => full = undoes && matches!(said, Said::NoRoom),
                Ok(Open { undoes: true, said: None }) => return Ok(Ran::Undoing),
                Ok(Open { undoes: false, said: None }) | Err(NOTHING_OPEN) => return Ok(Ran::Waits),
                Err(DC_DOWN) => return Ok(Ran::Down),
                Err(refusal) => return Err(refusal),
            }
            undoing &= !full;
        }
    }
}
