//! Calls of many threads over one transaction component, its log and its data components, in rounds, as `mazzulpe_pool.h` documents
//! it.
//!
//! ```text
//! let pool = Pool::open(tc, Some(log), 64, Options::default(), |wires| ..)?; // after Log::open
//! pool.come_back()?;
//! let ended = pool.call("move", &[1, 2, 30], 2)?;                            // from any thread
//! pool.checkpoint(Duration::from_secs(60), |dc, incarnation, mark| ..)?;
//! let (tc, log) = pool.close(Duration::from_secs(1));
//! ```

mod round;

use super::log::{Device, Log, LogError, LogFile};
use super::{
    BAD_ARGUMENT, BEHIND, Carried, LOG_FAILED, MEMORY, NO_DC, NOT_OVER, ONE_DOWN, Receipt, Record, Refusal, TXNS_OPEN,
    Tc, Value, Wire,
};
use round::{Lane, State};
use std::collections::{HashMap, VecDeque};
use std::fmt::Write;
use std::sync::mpsc::sync_channel;
use std::sync::{Arc, Condvar, Mutex, MutexGuard};
use std::thread::{Builder, JoinHandle};
use std::time::{Duration, Instant};

/// How a call ended, which the log has for good, and what its first access slots held at its end.
#[derive(Clone, Debug)]
pub struct Ended {
    pub receipt: Receipt,
    pub values: Vec<Option<Value>>,
}

type Told = Box<dyn FnOnce(Result<Ended, Refusal>) + Send>;
type Carry = Box<dyn Fn(&[Wire]) -> Vec<Carried> + Send + Sync>;

/// What has become of a data component, once each time; `None`: it answers again.
pub type Heard = Box<dyn Fn(u16, Option<Refusal>) + Send + Sync>;

pub struct Options {
    /// What is written ahead outlives this process, and not a loss of power ([`Log::flush`]).
    pub unsynced: bool,
    /// The longest rest of a component that is silent.
    pub longest_rest: Duration,
    pub heard: Option<Heard>,
}

impl Default for Options {
    fn default() -> Options {
        Options { unsynced: false, longest_rest: Duration::from_millis(250), heard: None }
    }
}

/// What an operator watches of it.
#[derive(Clone, Copy, Debug, Default, PartialEq, Eq)]
pub struct PoolCounts {
    /// Now, as the two after it: admitted; not yet; for another's end.
    pub open: u64,
    pub queued: u64,
    pub waiting: u64,
    pub told: u64,
    pub rounds: u64,
    pub wires: u64,
    pub redone: u64,
    /// Now: components whose rest is the longest.
    pub silent: u64,
}

/// A call, in one list at a time.
struct Call {
    procedure: String,
    args: Vec<u64>,
    values: usize,
    told: Told,
    number: Option<u64>,
    /// 0: it isn't admitted.
    txn: u64,
    /// The data component that it waits for.
    dc: u16,
    /// Of now, so that it needn't be made again.
    wire: Option<Wire>,
    undoing: bool,
    /// Busy; undos that found no room.
    tries: u32,
    refusals: u32,
    busy: Option<Record>,
    due: Option<Instant>,
}

impl Call {
    fn new(procedure: &str, args: &[u64], values: usize, told: Told) -> Call {
        Call {
            procedure: procedure.to_owned(),
            args: args.to_vec(),
            values,
            told,
            number: None,
            txn: 0,
            dc: 0,
            wire: None,
            undoing: false,
            tries: 0,
            refusals: 0,
            busy: None,
            due: None,
        }
    }
}

/// Calls that wait to be admitted, in the order in which they are tried.
const URGENT: usize = 0;
const READY: usize = 1;
const NEW: usize = 2;

/// Under its own lock, which is taken after the state's.
#[derive(Default)]
struct Queue {
    queues: [VecDeque<Call>; 3],
    /// Of each thread: it has nothing to do; it is to look before it sleeps; it waits, since a caller's thread makes its rounds.
    idle: Vec<bool>,
    wanted: Vec<bool>,
    taken: Vec<bool>,
    calls_at_once: usize,
    /// Admitted and not told; submitted and not told.
    in_use: usize,
    calls: usize,
    were_open: u64,
    coming_back: u64,
    came_back: u64,
    draining: bool,
    closing: bool,
    failed: Option<Refusal>,
}

impl Queue {
    fn is_queued(&self) -> bool {
        self.queues.iter().any(|it| !it.is_empty())
    }

    /// Whether a call that comes now is admitted by its caller's thread: there is a place, none comes first, and a data component may
    /// be idle.
    fn may_enter(&self) -> bool {
        !self.draining && self.in_use < self.calls_at_once && self.in_use <= self.idle.len() && !self.is_queued()
    }
}

struct Shared<D: Device> {
    state: Mutex<State>,
    queue: Mutex<Queue>,
    wanted: Vec<Condvar>,
    drained: Condvar,
    log: Option<Log<D>>,
    carry: Carry,
    options: Options,
}

pub struct Pool<D: Device = LogFile> {
    shared: Arc<Shared<D>>,
    threads: Vec<JoinHandle<()>>,
}

fn refusal_of(error: LogError) -> Refusal {
    match error {
        LogError::Refused(refusal, _) => refusal,
        LogError::Failed(_) => LOG_FAILED,
    }
}

impl<D: Device> Shared<D> {
    fn state(&self) -> MutexGuard<'_, State> {
        self.state.lock().expect("nobody panics under it")
    }

    fn queue(&self) -> MutexGuard<'_, Queue> {
        self.queue.lock().expect("nobody panics under it")
    }

    fn wake(&self, queue: &mut Queue, lane: usize) {
        queue.wanted[lane] = true;
        if !queue.taken[lane] {
            self.wanted[lane].notify_one();
        }
    }

    /// There is something to be admitted: if there are places, an idle thread looks, or each one before it sleeps.
    fn wake_one(&self, queue: &mut Queue) {
        let is_coming = (0..queue.idle.len()).any(|lane| queue.idle[lane] && queue.wanted[lane]);
        if queue.draining || queue.in_use >= queue.calls_at_once || is_coming {
            return;
        }
        match queue.idle.iter().position(|idle| *idle) {
            Some(lane) => self.wake(queue, lane),
            None => queue.wanted.fill(true),
        }
    }

    /// Waits under the queue's lock, until this time at most.
    fn wait<'a>(&self, queue: MutexGuard<'a, Queue>, until: Instant) -> MutexGuard<'a, Queue> {
        let left = until.saturating_duration_since(Instant::now());
        self.drained.wait_timeout(queue, left).expect("nobody panics under it").0
    }

    /// What was written up to there stays.
    fn stays(&self, until: u64) -> Result<(), Refusal> {
        let Some(log) = &self.log else { return Ok(()) };
        if self.options.unsynced { log.flush(until) } else { log.sync(until) }.map_err(refusal_of)
    }

    fn written(&self, tc: &mut Tc) -> Result<u64, Refusal> {
        self.log.as_ref().map_or(Ok(0), |log| log.write(tc).map_err(refusal_of))
    }

    /// Ends the pool: whoever is in a list is told; what is on its way to a component its thread tells.
    fn fail(&self, refusal: Refusal) {
        let mut all = Vec::new();
        {
            let (mut state, mut queue) = (self.state(), self.queue());
            if state.failed.is_none() {
                state.failed = Some(refusal);
                queue.failed = Some(refusal);
                all.extend(queue.queues.iter_mut().flat_map(std::mem::take));
                all.extend(state.all());
            }
            for lane in 0..self.wanted.len() {
                self.wake(&mut queue, lane);
            }
            self.drained.notify_all();
        }
        for call in all {
            (call.told)(Err(refusal));
        }
    }

    /// Has it queued; where its caller's thread may make its rounds it is handed back.
    fn submit(&self, call: Call, by_caller: bool) -> Result<Option<Call>, Refusal> {
        let mut queue = self.queue();
        if let Some(failed) = queue.failed {
            return Err(failed);
        }
        if queue.closing {
            return Err(NOT_OVER);
        }
        queue.calls += 1;
        if by_caller && queue.may_enter() {
            queue.in_use += 1;
            return Ok(Some(call));
        }
        queue.queues[NEW].push_back(call);
        self.wake_one(&mut queue);
        Ok(None)
    }

    /// Nothing is admitted any more, and what is open has ended; not later than this.
    fn drain(&self, until: Instant) -> Result<(), Refusal> {
        let mut queue = self.queue();
        while queue.draining && queue.failed.is_none() && Instant::now() < until {
            queue = self.wait(queue, until);
        }
        let is_mine = !queue.draining;
        queue.draining = true;
        while is_mine && queue.in_use > 0 && queue.failed.is_none() && Instant::now() < until {
            queue = self.wait(queue, until);
        }
        let drained = match queue.failed {
            Some(failed) => Err(failed),
            None if is_mine && queue.in_use == 0 => Ok(()),
            None => Err(TXNS_OPEN),
        };
        if is_mine && drained.is_err() {
            self.admits_again(&mut queue);
        }
        drained
    }

    /// After a checkpoint, whatever came of it.
    fn admits_again(&self, queue: &mut Queue) {
        queue.draining = false;
        self.wake_one(queue);
        self.drained.notify_all();
    }

    /// What storage is told: the mark, of a log that has all that it counts.
    fn mark(&self) -> Result<u64, Refusal> {
        let mut state = self.state();
        let (mark, lanes) = (state.tc.low_water(), self.wanted.len());
        if state.tc.open_count() > 0 {
            return Err(TXNS_OPEN);
        }
        for dc in 0..lanes as u16 {
            if state.tc.site(dc)?.1 {
                return Err(ONE_DOWN);
            }
        }
        let until = self.written(&mut state.tc)?;
        drop(state);
        self.stays(until)?;
        Ok(mark)
    }

    fn begin_again(&self, mut keep: impl FnMut(u16, u64, u64) -> bool) -> Result<(), Refusal> {
        let mark = self.mark()?;
        for dc in 0..self.wanted.len() as u16 {
            let (incarnation, _) = self.state().tc.site(dc)?;
            if !keep(dc, incarnation, mark) {
                return Err(BEHIND);
            }
        }
        let tc = &mut self.state().tc;
        match &self.log {
            Some(log) => log.checkpoint(tc, mark).map_err(refusal_of),
            None => tc.checkpoint(mark),
        }
    }
}

impl<D: Device + Send + Sync + 'static> Pool<D> {
    /// Takes up what is open, and redoes components that are down. At most `calls_at_once` calls are open together, but for those
    /// that were open before. `carry` is given wires of one data component, for each by one thread at a time, and says what became of
    /// each.
    pub fn open(
        mut tc: Tc,
        log: Option<Log<D>>,
        calls_at_once: usize,
        options: Options,
        carry: impl Fn(&[Wire]) -> Vec<Carried> + Send + Sync + 'static,
    ) -> Result<Pool<D>, Refusal> {
        if calls_at_once == 0 {
            return Err(BAD_ARGUMENT);
        }
        let lanes = (0..u16::MAX).take_while(|dc| tc.site(*dc).is_ok()).count();
        if lanes == 0 {
            return Err(NO_DC);
        }
        let flags = || vec![false; lanes];
        let queue = Queue { idle: flags(), wanted: flags(), taken: flags(), calls_at_once, ..Queue::default() };
        let state = State {
            tc,
            failed: None,
            broken: None,
            lanes: (0..lanes).map(|_| Lane::default()).collect(),
            waiters: HashMap::new(),
            busy: None,
            urgent: 0,
            counts: PoolCounts::default(),
        };
        let wanted = (0..lanes).map(|_| Condvar::new()).collect();
        let shared = Shared {
            state: Mutex::new(state),
            queue: Mutex::new(queue),
            wanted,
            drained: Condvar::new(),
            log,
            carry: Box::new(carry),
            options,
        };
        let mut pool = Pool { shared: Arc::new(shared), threads: Vec::new() };
        Shared::take_up(&pool.shared)?;
        for dc in 0..lanes as u16 {
            let shared = Arc::clone(&pool.shared);
            pool.threads.push(Builder::new().spawn(move || shared.runs(dc)).map_err(|_| MEMORY)?);
        }
        Ok(pool)
    }

    /// Waits until all that was open when it was opened has ended: how many. [`NOT_OVER`]: one is stuck.
    pub fn come_back(&self) -> Result<u64, Refusal> {
        let queue = self.shared.queue();
        let queue = self.shared.drained.wait_while(queue, |it| it.coming_back > 0).expect("nobody panics under it");
        match queue.failed {
            Some(failed) => Err(failed),
            None if queue.came_back < queue.were_open => Err(NOT_OVER),
            None => Ok(queue.came_back),
        }
    }

    /// Makes a call and waits for its end, however long its data components are away; `values`: of this many access slots it says what
    /// they held. Where a data component is idle this thread carries. Never from a function that the pool calls, nor under a lock that
    /// `carry` takes.
    pub fn call(&self, procedure: &str, args: &[u64], values: usize) -> Result<Ended, Refusal> {
        let (to, from) = sync_channel(1);
        let told = move |ended| to.send(ended).expect("whoever calls waits");
        if let Some(call) = self.shared.submit(Call::new(procedure, args, values, Box::new(told)), true)? {
            self.shared.own_rounds(call);
        }
        from.recv().expect("each call is told")
    }

    /// Has a call queued; `told` is called once it has ended, by a thread of the pool.
    pub fn submit(
        &self,
        procedure: &str,
        args: &[u64],
        values: usize,
        told: impl FnOnce(Result<Ended, Refusal>) + Send + 'static,
    ) -> Result<(), Refusal> {
        self.shared.submit(Call::new(procedure, args, values, Box::new(told)), false).map(|_| ())
    }

    /// Has the log begin again: what is open ends, `keep` has each data component keep the mark for good, and says whether it does.
    /// Refused, and calls go on: [`TXNS_OPEN`], not within `patience`, or one is stuck; [`ONE_DOWN`]; [`BEHIND`].
    pub fn checkpoint(&self, patience: Duration, keep: impl FnMut(u16, u64, u64) -> bool) -> Result<(), Refusal> {
        self.shared.drain(Instant::now() + patience)?;
        let begun = self.shared.begin_again(keep);
        if begun == Err(LOG_FAILED) {
            self.shared.fail(LOG_FAILED);
        }
        self.shared.admits_again(&mut self.shared.queue());
        begun
    }

    /// A look of yours on the transaction component, while nothing goes on.
    pub fn look<T>(&self, look: impl FnOnce(&mut Tc) -> T) -> T {
        look(&mut self.shared.state().tc)
    }

    pub fn count(&self) -> PoolCounts {
        let (state, queue) = (self.shared.state(), self.shared.queue());
        PoolCounts { queued: queue.queues.iter().map(|it| it.len() as u64).sum(), ..state.counts }
    }

    /// The same as lines of text, with a line of each data component.
    pub fn print(&self) -> String {
        let n = self.count();
        let mut text =
            format!("calls: {} open, {} queued, {} wait for another, {} ended\n", n.open, n.queued, n.waiting, n.told);
        writeln!(text, "rounds: {}, of {} wires, {} of them redone", n.rounds, n.wires, n.redone).expect("room");
        for dc in 0..self.threads.len() {
            let mut state = self.shared.state();
            let (incarnation, down) = state.tc.site(dc as u16).expect("a data component of it");
            let lane = &state.lanes[dc];
            let (site, trouble) = (if down { "down" } else { "up" }, lane.trouble.map_or("OK", Refusal::code_text));
            let rest = lane.rest.as_millis();
            writeln!(text, "component {dc}: {site}, incarnation {incarnation}, rests {rest} ms, {trouble}")
                .expect("room");
        }
        text
    }

    /// Takes no further calls, and waits for those that are there, so long at most. What is open then stays open in the log; its
    /// callers are told [`NOT_OVER`].
    pub fn close(mut self, patience: Duration) -> (Tc, Option<Log<D>>) {
        self.end(patience);
        let shared = Arc::clone(&self.shared);
        drop(self);
        let shared = Arc::into_inner(shared).expect("its threads have ended");
        let mut state = shared.state.into_inner().expect("nobody panics under it");
        if let (Some(log), Some(NOT_OVER)) = (&shared.log, state.failed) {
            let _ = log.keep(&mut state.tc); // what is open, and was never carried
        }
        (state.tc, shared.log)
    }
}

impl<D: Device> Pool<D> {
    fn end(&mut self, patience: Duration) {
        let until = Instant::now() + patience;
        let mut queue = self.shared.queue();
        queue.closing = true;
        while queue.calls > 0 && queue.failed.is_none() && Instant::now() < until {
            queue = self.shared.wait(queue, until);
        }
        drop(queue);
        self.shared.fail(NOT_OVER);
        for thread in self.threads.drain(..) {
            thread.join().expect("a thread of the pool doesn't panic");
        }
    }
}

impl<D: Device> Drop for Pool<D> {
    fn drop(&mut self) {
        self.end(Duration::ZERO);
    }
}
