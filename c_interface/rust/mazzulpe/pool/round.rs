//! How the calls of a pool go, in rounds.

use super::super::log::Device;
use super::super::{
    BUSY, Carried, DEPOSED, DIVERGED, LOG_FAILED, NOT_OVER, NOTHING_OPEN, Next, NotAdmitted, OLD_NEWS, Record, Refusal,
    SILENT, Said, Tc, Wire,
};
use super::{Call, Ended, NEW, PoolCounts, Queue, READY, Shared, URGENT};
use std::collections::{HashMap, VecDeque};
use std::mem::take;
use std::panic::{AssertUnwindSafe, catch_unwind, resume_unwind};
use std::sync::Arc;
use std::time::{Duration, Instant};

/// The most wires of a batch.
const BATCH: usize = 1024;
/// A call that was busy so often is urgent.
const PATIENCE: u32 = 32;

/// A data component, which has a thread.
#[derive(Default)]
pub(super) struct Lane {
    /// For their wires to be carried; for an undo to be made again.
    waiting: VecDeque<Call>,
    set_aside: VecDeque<Call>,
    /// By its thread, to be told.
    ended: Vec<(Call, Result<Ended, Refusal>)>,
    /// It has got work by another's thread.
    is_due: bool,
    pub(super) rest: Duration,
    until: Option<Instant>,
    /// As `heard` was told; what its news were refused by.
    pub(super) trouble: Option<Refusal>,
    refused: Option<Refusal>,
    /// What `heard` is to be told.
    heard: Option<Option<Refusal>>,
}

pub(super) struct State {
    pub(super) tc: Tc,
    pub(super) failed: Option<Refusal>,
    /// What a caller's thread met, for one of the pool's to end it by.
    pub(super) broken: Option<Refusal>,
    pub(super) lanes: Vec<Lane>,
    /// Of each open call: who waits for its end.
    pub(super) waiters: HashMap<u64, VecDeque<Call>>,
    /// In this pass of admissions: which record was busy, and by whom.
    pub(super) busy: Option<(Record, u64)>,
    /// Calls that were busy too often.
    pub(super) urgent: usize,
    pub(super) counts: PoolCounts,
}

/// What a thread carries; `calls` is empty in a redo.
#[derive(Default)]
struct Batch {
    calls: VecDeque<Call>,
    wires: Vec<Wire>,
    carried: Vec<Carried>,
}

/// A call whose caller's thread makes its rounds: `call` before it is admitted, in `batch` while it is on its way, and `ended`.
#[derive(Default)]
struct Own {
    call: Option<Call>,
    /// Which it holds.
    lane: Option<u16>,
    batch: Batch,
    ended: Option<(Call, Result<Ended, Refusal>)>,
    until: u64,
}

/// What is to be done once the lock is let go.
struct After {
    ended: Vec<(Call, Result<Ended, Refusal>)>,
    until: u64,
    wakes: Option<Instant>,
    heard: Option<Option<Refusal>>,
}

impl State {
    fn going_on(&self) -> Result<(), Refusal> {
        self.failed.or(self.broken).map_or(Ok(()), Err)
    }

    /// All that are in a list.
    pub(super) fn all(&mut self) -> Vec<Call> {
        let lists = self.lanes.iter_mut().flat_map(|it| [take(&mut it.waiting), take(&mut it.set_aside)]);
        let mut all: Vec<Call> = lists.flatten().collect();
        all.extend(self.waiters.drain().flat_map(|(_, waiters)| waiters));
        all
    }

    fn finish(&mut self, lane: u16, call: Call, how: Result<Ended, Refusal>, queue: &mut Queue) {
        if call.txn != 0 {
            let waiters = self.waiters.remove(&call.txn).unwrap_or_default();
            self.counts.waiting -= waiters.len() as u64;
            self.counts.open -= 1;
            for waiter in waiters {
                queue.queues[if waiter.tries < PATIENCE { READY } else { URGENT }].push_back(waiter);
            }
        }
        self.counts.told += 1;
        self.lanes[usize::from(lane)].ended.push((call, how));
    }

    /// Asks on, until it has a wire, waits or is over. A refusal ends the pool.
    fn advance(&mut self, lane: u16, mut call: Call, queue: &mut Queue) -> Result<(), Refusal> {
        loop {
            let next = if call.undoing { self.tc.undo(call.txn) } else { self.tc.ask(call.txn) };
            call.wire = None;
            match next {
                Ok(Next::Request(wire)) => {
                    call.dc = wire.op.record().dc;
                    call.wire = Some(wire);
                    break;
                }
                Ok(Next::Down(record)) => {
                    call.dc = record.dc;
                    break;
                }
                Ok(Next::Waits(_)) => break,
                Ok(Next::Undoing) => call.undoing = true,
                Ok(Next::Running) => call.undoing = false,
                Ok(Next::Over) => return self.over(lane, call, queue),
                Ok(Next::Stuck(_)) => {
                    self.finish(lane, call, Err(NOT_OVER), queue);
                    return Ok(());
                }
                Err(refusal) => {
                    self.finish(lane, call, Err(refusal), queue);
                    return Err(refusal);
                }
            }
        }
        let to = &mut self.lanes[usize::from(call.dc)];
        to.is_due = true;
        to.waiting.push_back(call);
        Ok(())
    }

    fn over(&mut self, lane: u16, call: Call, queue: &mut Queue) -> Result<(), Refusal> {
        let values = (0..call.values).map(|slot| self.tc.result(call.txn, slot as u64).unwrap_or(None)).collect();
        let ended = self.tc.end(call.txn).map(|receipt| Ended { receipt, values });
        let refused = ended.as_ref().err().copied();
        self.finish(lane, call, ended, queue);
        refused.map_or(Ok(()), Err)
    }

    /// After its answer. An undo that found no room has few numbers left, and rests longer each time.
    fn goes_on(
        &mut self,
        lane: u16,
        mut call: Call,
        undoes: bool,
        said: &Said,
        queue: &mut Queue,
        rest: Duration,
    ) -> Result<(), Refusal> {
        if !undoes || !matches!(said, Said::NoRoom) {
            return self.advance(lane, call, queue);
        }
        call.undoing = false;
        call.refusals += 1;
        call.due = Some(Instant::now() + rest * (1 << (call.refusals + 1).min(10)));
        self.lanes[usize::from(lane)].set_aside.push_back(call);
        Ok(())
    }

    // ---- admissions

    fn procedure(&mut self, call: &mut Call) -> Result<u64, Refusal> {
        let number = call.number.map_or_else(|| self.tc.find(&call.procedure), Ok)?;
        call.number = Some(number);
        Ok(number)
    }

    /// The holder in the way, or how it went. A call that met this record before waits where the last one does, without a try.
    fn tried(&mut self, call: &mut Call) -> Result<Option<u64>, Refusal> {
        if let Some((record, holder)) = self.busy.filter(|(record, _)| call.busy == Some(*record)) {
            call.busy = Some(record);
            return Ok(Some(holder));
        }
        let procedure = self.procedure(call)?;
        match self.tc.admit(procedure, &call.args) {
            Ok(txn) => call.txn = txn,
            Err(NotAdmitted::Refused(refusal)) => return Err(refusal),
            Err(NotAdmitted::Busy { record, holder }) => {
                self.busy = Some((record, holder));
                call.busy = Some(record);
                call.tries += 1;
                self.urgent += usize::from(call.tries == PATIENCE);
                return Ok(Some(holder));
            }
        }
        Ok(None)
    }

    /// Admits it, or has it wait or end.
    fn admit(&mut self, lane: u16, mut call: Call, queue: &mut Queue) -> Result<(), Refusal> {
        let tried = self.tried(&mut call);
        if let Ok(Some(holder)) = tried
            && let Some(waiters) = self.waiters.get_mut(&holder)
        {
            waiters.push_back(call);
            self.counts.waiting += 1;
            queue.in_use -= 1;
            return Ok(());
        }
        self.urgent -= usize::from(call.tries >= PATIENCE);
        match tried {
            Ok(None) => {
                self.waiters.insert(call.txn, VecDeque::new());
                self.counts.open += 1;
                self.advance(lane, call, queue)
            }
            Ok(Some(_)) => {
                self.finish(lane, call, Err(BUSY), queue); // one that is stuck holds the lock
                Ok(())
            }
            Err(refusal) => {
                self.finish(lane, call, Err(refusal), queue);
                Ok(())
            }
        }
    }

    /// Tries all that there are places for.
    fn admit_all(&mut self, lane: u16, queue: &mut Queue) -> Result<(), Refusal> {
        self.busy = None;
        while !queue.draining && queue.in_use < queue.calls_at_once {
            let last = if self.urgent > 0 && self.counts.silent == 0 { URGENT } else { NEW };
            let Some(call) = queue.queues[..=last].iter_mut().find_map(VecDeque::pop_front) else { break };
            queue.in_use += 1;
            self.admit(lane, call, queue)?;
        }
        Ok(())
    }

    // ---- a round of a data component

    /// What came of one wire: whether it was answered. Its call goes on, or it is carried again. A refusal ends the pool.
    fn reply(
        &mut self,
        lane: u16,
        call: Option<Call>,
        of: (&Wire, Carried),
        is_next: bool,
        queue: &mut Queue,
        rest: Duration,
    ) -> Result<bool, Refusal> {
        let (wire, carried) = of;
        let taken = match (carried, &call) {
            (Carried::Replied(reply), Some(call)) => self.tc.answer(call.txn, &reply),
            (Carried::Replied(reply), None) if is_next => self.tc.redone(lane, &reply),
            (Carried::Restarted(news), _) => {
                let told = self.tc.told(lane, news);
                let refused = &mut self.lanes[usize::from(lane)].refused;
                *refused = told.err().and_then(|it| if it == OLD_NEWS { *refused } else { Some(it) });
                Err(SILENT)
            }
            (Carried::Retired, _) => Err(self.tc.retired(wire)),
            (Carried::Unwritten, _) => Err(LOG_FAILED),
            _ => Err(SILENT),
        };
        match (taken, call, carried) {
            (Ok(()), Some(call), Carried::Replied(reply)) => {
                self.goes_on(lane, call, wire.undoes, &reply.said, queue, rest)?
            }
            (Err(refusal @ (DIVERGED | DEPOSED | LOG_FAILED)), call, _) => {
                if let Some(call) = call {
                    self.finish(lane, call, Err(refusal), queue);
                }
                return Err(refusal);
            }
            (Err(_), Some(mut call), _) => {
                call.wire = None;
                self.lanes[usize::from(lane)].waiting.push_back(call);
            }
            _ => {}
        }
        Ok(taken.is_ok())
    }

    /// The rest after a round that nobody answered, and what is to be told of it.
    fn rests(&mut self, lane: u16, answered: usize, longest: Duration) {
        let it = &mut self.lanes[usize::from(lane)];
        let was_silent = it.rest == longest;
        if answered > 0 {
            (it.rest, it.until, it.refused) = (Duration::ZERO, None, None);
        } else {
            it.rest = (2 * it.rest).max(Duration::from_millis(1)).min(longest);
            it.until = Some(Instant::now() + it.rest);
        }
        let is_silent = it.rest == longest;
        let now = if it.refused.is_some() {
            it.refused
        } else if is_silent {
            Some(SILENT)
        } else if answered > 0 {
            None
        } else {
            it.trouble
        };
        if now != it.trouble {
            (it.trouble, it.heard) = (now, Some(now));
        }
        self.counts.silent = self.counts.silent + u64::from(is_silent) - u64::from(was_silent);
    }

    /// All that came of what was carried.
    fn take_in(&mut self, lane: u16, batch: &mut Batch, queue: &mut Queue, longest: Duration) -> Result<(), Refusal> {
        let (wires, carried) = (take(&mut batch.wires), take(&mut batch.carried));
        let redoes = batch.calls.is_empty();
        let mut answered = 0;
        for (i, wire) in wires.iter().enumerate() {
            let of = (wire, carried.get(i).copied().unwrap_or(Carried::Lost));
            let call = batch.calls.pop_front();
            answered += usize::from(self.reply(lane, call, of, answered == i, queue, longest)?);
        }
        if redoes {
            self.counts.redone += answered as u64;
        }
        if !wires.is_empty() {
            self.rests(lane, answered, longest);
        }
        Ok(())
    }

    /// Undos whose rest is over.
    fn undo_again(&mut self, lane: u16, queue: &mut Queue) -> Result<(), Refusal> {
        for call in take(&mut self.lanes[usize::from(lane)].set_aside) {
            if call.due.is_some_and(|due| due <= Instant::now()) {
                self.advance(lane, call, queue)?;
            } else {
                self.lanes[usize::from(lane)].set_aside.push_back(call);
            }
        }
        Ok(())
    }

    /// Its wire, to be carried now; `None`: it asks on instead.
    fn wire(&mut self, call: &Call, incarnation: u64) -> Result<Option<Wire>, Refusal> {
        if let Some(wire) = call.wire.filter(|it| it.incarnation == incarnation) {
            return Ok(Some(wire));
        }
        match self.tc.resend(call.txn) {
            Err(NOTHING_OPEN) => {}
            made => return made.map(Some),
        }
        match self.tc.retake(call.txn) {
            Ok(Next::Request(wire)) => Ok(Some(wire)),
            Ok(_) => Err(NOT_OVER), // it is up
            Err(NOTHING_OPEN) => Ok(None),
            Err(refusal) => Err(refusal),
        }
    }

    /// What is carried next: a part of the redo, or the wires of all that wait; nothing during a rest.
    fn choose(&mut self, lane: u16, batch: &mut Batch, queue: &mut Queue) -> Result<(), Refusal> {
        if self.lanes[usize::from(lane)].until.is_some_and(|until| Instant::now() < until) {
            return Ok(());
        }
        self.lanes[usize::from(lane)].until = None;
        if self.tc.site(lane)?.1 {
            batch.wires = self.tc.redo_some(lane, BATCH)?;
        }
        let (incarnation, down) = self.tc.site(lane)?;
        while !down && batch.wires.len() < BATCH {
            let Some(call) = self.lanes[usize::from(lane)].waiting.pop_front() else { break };
            match self.wire(&call, incarnation) {
                Ok(Some(wire)) => {
                    batch.wires.push(wire);
                    batch.calls.push_back(call);
                }
                Ok(None) => self.advance(lane, call, queue)?,
                Err(refusal) => {
                    self.finish(lane, call, Err(refusal), queue);
                    return Err(refusal);
                }
            }
        }
        self.counts.rounds += u64::from(!batch.wires.is_empty());
        self.counts.wires += batch.wires.len() as u64;
        Ok(())
    }
}

impl State {
    /// Where the call of a caller's thread waits, which alone got on by now: if that has nothing else to do.
    fn free_lane(&self, queue: &Queue) -> Option<u16> {
        let at = self.lanes.iter().position(|it| it.is_due)?;
        let lane = &self.lanes[at];
        let is_alone = lane.waiting.len() == 1 && lane.waiting[0].wire.is_some();
        let is_quiet = lane.rest.is_zero() && lane.set_aside.is_empty();
        (is_alone && is_quiet && queue.idle[at] && !queue.wanted[at]).then_some(at as u16)
    }
}

impl<D: Device + Send + Sync + 'static> Shared<D> {
    /// Takes up each call that is open.
    pub(super) fn take_up(shared: &Arc<Shared<D>>) -> Result<(), Refusal> {
        let (mut state, mut queue) = (shared.state(), shared.queue());
        let mut place = 0;
        while let Ok(open) = state.tc.open_from(place) {
            place = open.place + 1;
            let back = Arc::downgrade(shared);
            let told = move |ended: Result<Ended, Refusal>| {
                let Some(shared) = back.upgrade() else { return };
                let mut queue = shared.queue();
                queue.coming_back -= 1;
                queue.came_back += u64::from(ended.is_ok());
                shared.drained.notify_all();
            };
            let mut call = Call::new("", &[], 0, Box::new(told));
            call.txn = open.txn;
            state.waiters.insert(open.txn, VecDeque::new());
            state.counts.open += 1;
            (queue.in_use, queue.calls) = (queue.in_use + 1, queue.calls + 1);
            (queue.were_open, queue.coming_back) = (queue.were_open + 1, queue.coming_back + 1);
            match open.waits {
                Some((_, op)) => {
                    call.dc = op.record().dc;
                    let dc = usize::from(call.dc);
                    state.lanes[dc].waiting.push_back(call);
                }
                None => state.advance(0, call, &mut queue)?,
            }
        }
        Ok(())
    }

    /// All that is done under the locks.
    fn locked(&self, lane: u16, batch: &mut Batch, after: &mut After) -> Result<(), Refusal> {
        let mut state = self.state();
        state.going_on()?;
        let done = {
            let mut queue = self.queue();
            let longest = self.options.longest_rest;
            let done = state
                .take_in(lane, batch, &mut queue, longest)
                .and_then(|()| state.undo_again(lane, &mut queue))
                .and_then(|()| state.admit_all(lane, &mut queue))
                .and_then(|()| state.choose(lane, batch, &mut queue));
            self.wake_due(&mut state, &mut queue, Some(lane));
            done
        };
        let own = &mut state.lanes[usize::from(lane)];
        after.heard = own.heard.take();
        after.ended = take(&mut own.ended);
        after.wakes = own.set_aside.iter().filter_map(|it| it.due).chain(own.until).min();
        done?;
        if !batch.wires.is_empty() || !after.ended.is_empty() {
            after.until = self.written(&mut state.tc)?;
        }
        Ok(())
    }

    /// Those that got wires from this thread, but for the one that it runs.
    fn wake_due(&self, state: &mut State, queue: &mut Queue, mine: Option<u16>) {
        for (dc, lane) in state.lanes.iter_mut().enumerate() {
            if take(&mut lane.is_due) && mine != Some(dc as u16) {
                self.wake(queue, dc);
            }
        }
    }

    /// Places of calls that were told.
    fn give_places(&self, queue: &mut Queue, count: usize) {
        queue.in_use -= count;
        queue.calls -= count;
        if (queue.draining && queue.in_use == 0) || (queue.closing && queue.calls == 0) {
            self.drained.notify_all();
        }
    }

    /// Tells those that ended, whose places are free then. If it has nothing to carry it looks itself who wants them; a call that was
    /// alone leaves the lane free for its caller's next one.
    fn tell(&self, lane: u16, carries: bool, ended: Vec<(Call, Result<Ended, Refusal>)>, done: Result<(), Refusal>) {
        let (lane, count) = (usize::from(lane), ended.len());
        self.queue().idle[lane] = !carries && count == 1 && done.is_ok();
        for (call, how) in ended {
            (call.told)(done.and(how));
        }
        let mut queue = self.queue();
        self.give_places(&mut queue, count);
        if queue.is_queued() && !carries && !queue.taken[lane] {
            queue.wanted[lane] = true;
        } else if queue.is_queued() {
            self.wake_one(&mut queue);
        }
    }

    fn sleep(&self, lane: u16, until: Option<Instant>) {
        let lane = usize::from(lane);
        let mut queue = self.queue();
        queue.idle[lane] = !queue.taken[lane];
        while queue.taken[lane] || (!queue.wanted[lane] && until.is_none_or(|it| Instant::now() < it)) {
            queue = match until.filter(|_| !queue.taken[lane]) {
                None => self.wanted[lane].wait(queue).expect("nobody panics under it"),
                Some(it) => {
                    let left = it.saturating_duration_since(Instant::now());
                    self.wanted[lane].wait_timeout(queue, left).expect("nobody panics under it").0
                }
            };
        }
        (queue.idle[lane], queue.wanted[lane]) = (false, false);
    }

    fn round(&self, lane: u16, batch: &mut Batch) -> Result<(), Refusal> {
        let mut after = After { ended: Vec::new(), until: 0, wakes: None, heard: None };
        let mut done = self.locked(lane, batch, &mut after);
        if let (Some(heard), Some(to)) = (after.heard, &self.options.heard) {
            to(lane, heard);
        }
        let is_idle = batch.wires.is_empty();
        if done.is_ok() && !(is_idle && after.ended.is_empty()) {
            done = self.stays(after.until);
        }
        if !after.ended.is_empty() {
            self.tell(lane, !is_idle, after.ended, done);
        }
        done?;
        if is_idle {
            self.sleep(lane, after.wakes);
        } else {
            batch.carried = (self.carry)(&batch.wires);
        }
        Ok(())
    }

    /// The thread of a data component.
    pub(super) fn runs(&self, lane: u16) {
        let mut batch = Batch::default();
        let refusal = loop {
            if let Err(refusal) = self.round(lane, &mut batch) {
                break refusal;
            }
        };
        self.fail(refusal);
        for call in batch.calls {
            (call.told)(Err(refusal));
        }
    }

    // ---- rounds by a caller's thread, of its call alone: nothing is handed to another thread where nobody else uses the data component

    /// Admits it, where no other call comes first.
    fn admit_own(&self, state: &mut State, call: Call, queue: &mut Queue) -> Result<(), Refusal> {
        state.busy = None;
        if state.urgent == 0 || state.counts.silent > 0 {
            return state.admit(0, call, queue);
        }
        queue.queues[NEW].push_back(call);
        queue.in_use -= 1;
        self.wake_one(queue);
        Ok(())
    }

    /// Gives the lane back that it held, and takes the one in which its call waits, if that is free; else the pool's threads go on
    /// with it.
    fn change_lanes(&self, state: &mut State, own: &mut Own, queue: &mut Queue) {
        if let Some(held) = own.lane {
            self.give_back(queue, held);
        }
        let next = state.free_lane(queue);
        if let Some(held) = own.lane.filter(|it| next != Some(*it)) {
            let lane = &state.lanes[usize::from(held)];
            if queue.wanted[usize::from(held)] || !lane.waiting.is_empty() || !lane.set_aside.is_empty() {
                self.wake(queue, usize::from(held));
            }
        }
        if let Some(lane) = next {
            (queue.idle[usize::from(lane)], queue.taken[usize::from(lane)]) = (false, true);
        }
        if own.ended.is_some() && queue.is_queued() {
            self.wake_one(queue); // they waited for its end
        }
        self.wake_due(state, queue, next);
        own.lane = next;
    }

    fn give_back(&self, queue: &mut Queue, lane: u16) {
        (queue.idle[usize::from(lane)], queue.taken[usize::from(lane)]) = (true, false);
    }

    /// As `locked`, in the lane that it holds, or none yet.
    fn own_locked(&self, own: &mut Own) -> Result<(), Refusal> {
        let (mut guard, longest) = (self.state(), self.options.longest_rest);
        let state = &mut *guard;
        state.going_on()?;
        let mut queue = self.queue();
        let lane = own.lane.unwrap_or(0);
        let others = state.lanes[usize::from(lane)].ended.len();
        let done = match own.call.take() {
            Some(call) => self.admit_own(state, call, &mut queue),
            None => state.take_in(lane, &mut own.batch, &mut queue, longest),
        };
        own.ended = state.lanes[usize::from(lane)].ended.drain(others..).next();
        done?;
        self.change_lanes(state, own, &mut queue);
        if let Some(lane) = own.lane {
            let chosen = state.choose(lane, &mut own.batch, &mut queue);
            own.ended = state.lanes[usize::from(lane)].ended.pop(); // where it was refused
            chosen?;
        }
        if own.lane.is_some() || own.ended.is_some() {
            own.until = self.written(&mut state.tc)?;
        }
        Ok(())
    }

    /// Has the pool's threads end it.
    fn breaks(&self, lane: Option<u16>, refusal: Refusal) {
        let (mut state, mut queue) = (self.state(), self.queue());
        state.broken.get_or_insert(refusal);
        if let Some(lane) = lane {
            self.give_back(&mut queue, lane);
        }
        for lane in 0..self.wanted.len() {
            self.wake(&mut queue, lane);
        }
    }

    /// Goes on with a call as far as this thread may, and tells it where it ended.
    pub(super) fn own_rounds(&self, call: Call) {
        let mut own = Own { call: Some(call), ..Own::default() };
        let mut done = self.own_locked(&mut own);
        while done.is_ok() && own.lane.is_some() {
            done = self.stays(own.until);
            if done.is_ok() {
                let carried = catch_unwind(AssertUnwindSafe(|| (self.carry)(&own.batch.wires)));
                own.batch.carried = carried.unwrap_or_else(|panic| {
                    self.breaks(own.lane, NOT_OVER); // nobody waits for ever for this thread
                    resume_unwind(panic)
                });
                done = self.own_locked(&mut own);
            }
        }
        if done.is_ok() && own.ended.is_some() {
            done = self.stays(own.until);
        }
        match done {
            Err(refusal) => self.breaks(own.lane, refusal),
            Ok(()) if own.ended.is_some() => {
                let mut queue = self.queue();
                self.give_places(&mut queue, 1);
                if queue.is_queued() {
                    self.wake_one(&mut queue);
                }
            }
            Ok(()) => {}
        }
        let left = own.call.into_iter().chain(own.batch.calls).map(|call| (call, Err(NOT_OVER)));
        for (call, how) in own.ended.into_iter().chain(left) {
            (call.told)(done.and(how));
        }
    }
}
