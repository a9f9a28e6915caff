//! A bank by a pool: calls that go together and wait for one another, a component that is silent, threads over components that lose
//! replies and restart, with checkpoints; what ends a pool; and what comes back from the log. It says what it saw, which doesn't
//! depend on how quick it is.
#[allow(dead_code, unused_imports)]
mod mazzulpe;

use mazzulpe::log::Log;
use mazzulpe::pool::{Ended, Options, Pool};
use mazzulpe::{
    ARGUMENT_COUNT, BEHIND, Carried, DIVERGED, Dc, NO_PROCEDURE, NOT_OVER, News, ONE_DOWN, Outcome, Record, Refusal,
    Reply, SILENT, Said, TXNS_OPEN, Tc, Wire,
};
use std::collections::HashSet;
use std::fs;
use std::path::{Path, PathBuf};
use std::sync::atomic::{AtomicBool, AtomicU64, Ordering::SeqCst};
use std::sync::mpsc::channel;
use std::sync::{Arc, Condvar, Mutex};
use std::thread::{self, ThreadId};
use std::time::Duration;

const THREADS: u64 = 8;
const TURNS: u64 = 100;
const OPENING: u64 = 1_000_000;
const LONG: Duration = Duration::from_secs(600);

/// What goes wrong at a data component.
#[derive(Clone, Copy, Default)]
struct Way {
    silent: bool,
    diverges: bool,
    losing: bool,
    restarts_each: u64,
}

struct Component {
    dc: Dc,
    news: News,
    way: Way,
    batches: u64,
    largest: usize,
    carriers: HashSet<ThreadId>,
    drawn: u32,
}

struct Storage {
    of: [Mutex<Component>; 2],
    is_held: Mutex<bool>,
    let_go: Condvar,
}

impl Component {
    fn is_drawn(&mut self) -> bool {
        self.drawn = self.drawn.wrapping_mul(1_103_515_245).wrapping_add(12345);
        (self.drawn >> 16).is_multiple_of(16)
    }

    fn carry(&mut self, wire: &Wire) -> Carried {
        if wire.incarnation < self.news.incarnation {
            return Carried::Restarted(self.news);
        }
        let Ok(reply) = self.dc.perform(wire) else { return Carried::Lost };
        if self.way.losing && self.is_drawn() {
            return Carried::Lost;
        }
        Carried::Replied(if self.way.diverges { Reply { said: Said::Duplicate, ..reply } } else { reply })
    }
}

impl Storage {
    fn new() -> Arc<Storage> {
        let component = || {
            let dc = Dc::new(1000, 1 << 16).expect("memory");
            Mutex::new(Component {
                dc,
                news: News { incarnation: 0, mark: 0 },
                way: Way::default(),
                batches: 0,
                largest: 0,
                carriers: HashSet::new(),
                drawn: 1,
            })
        };
        Arc::new(Storage { of: [component(), component()], is_held: Mutex::new(false), let_go: Condvar::new() })
    }

    fn carry(&self, wires: &[Wire]) -> Vec<Carried> {
        let dc = wires[0].op.record().dc;
        drop(self.let_go.wait_while(self.is_held.lock().unwrap(), |held| *held).unwrap());
        let mut of = self.of[usize::from(dc)].lock().unwrap();
        of.batches += 1;
        of.carriers.insert(thread::current().id());
        of.largest = of.largest.max(wires.len());
        if of.way.restarts_each > 0 && of.batches.is_multiple_of(of.way.restarts_each) {
            of.news = of.dc.restart().unwrap();
        }
        if of.way.silent {
            return vec![Carried::Lost; wires.len()];
        }
        wires.iter().map(|wire| of.carry(wire)).collect()
    }

    fn keep(&self, dc: u16, incarnation: u64, mark: u64) -> bool {
        let mut of = self.of[usize::from(dc)].lock().unwrap();
        incarnation == of.news.incarnation
            && of
                .dc
                .hear_mark(incarnation, mark)
                .and_then(|()| of.dc.checkpoint())
                .and_then(|()| of.dc.forget())
                .is_ok()
    }

    fn hold(&self, is_held: bool) {
        *self.is_held.lock().unwrap() = is_held;
        self.let_go.notify_all();
    }

    fn set(&self, dc: usize, way: Way) {
        self.of[dc].lock().unwrap().way = way;
    }

    fn balance(&self, dc: u16, key: u64) -> u64 {
        let value = self.of[usize::from(dc)].lock().unwrap().dc.get(&Record { dc, table: 0, key }).unwrap();
        value.map_or(0, |it| u64::from_le_bytes(it[..8].try_into().expect("8 bytes")))
    }
}

fn opened(path: Option<&Path>, storage: &Arc<Storage>, calls_at_once: usize, options: Options) -> Pool {
    let mut tc = Tc::new(2).unwrap();
    tc.load_object(&fs::read("build/bank.o").unwrap()).unwrap();
    let log = path.map(|it| Log::open(&mut tc, it).unwrap().0);
    let own = Arc::clone(storage);
    Pool::open(tc, log, calls_at_once, options, move |wires| own.carry(wires)).unwrap()
}

fn quick() -> Options {
    Options { unsynced: true, longest_rest: Duration::from_millis(4), heard: None }
}

fn is_committed(ended: &Result<Ended, Refusal>) -> bool {
    ended.as_ref().is_ok_and(|it| it.receipt.outcome == Outcome::Committed)
}

fn calls() {
    let storage = Storage::new();
    let pool = opened(None, &storage, 64, quick());
    println!(
        "opened: {}",
        is_committed(&pool.call("deposit_here", &[1, 10], 0)) && is_committed(&pool.call("deposit_there", &[2, 20], 0))
    );
    let values = pool.call("balances", &[1, 2], 3).unwrap().values;
    println!("held: {:?}", values.iter().map(|it| it.map(|value| value[0])).collect::<Vec<_>>());
    println!("aborted: {:?}", pool.call("touch", &[1], 0).unwrap().receipt.outcome);
    let refused = pool.call("nobody's", &[], 0).is_err_and(|it| it == NO_PROCEDURE);
    println!("refused: {}", refused && pool.call("move", &[1], 0).is_err_and(|it| it == ARGUMENT_COUNT));
    storage.hold(true);
    let (to, from) = channel();
    for i in 0..64 {
        let to = to.clone();
        let of = if i < 32 { 7 } else { 100 + i };
        pool.submit("deposit_here", &[of, 1], 0, move |ended| to.send((i, is_committed(&ended))).unwrap()).unwrap();
    }
    while pool.count().open + pool.count().waiting < 64 {
        thread::yield_now();
    }
    storage.hold(false);
    let told: Vec<(u64, bool)> = from.iter().take(64).collect();
    let in_order = told.iter().filter(|it| it.0 < 32).is_sorted();
    println!(
        "together: {}, in order {in_order}",
        told.iter().all(|it| it.1) && storage.of[0].lock().unwrap().largest >= 32
    );
    println!("busy: {}", pool.look(|tc| tc.count().busy) < 64);
    let (mut tc, log) = pool.close(LONG);
    println!("closed: {} open, a log {}", tc.open_count(), log.is_some());
}

fn is_silent() {
    let storage = Storage::new();
    let (to, from) = channel();
    let heard =
        Some(Box::new(move |dc: u16, what: Option<Refusal>| to.send((dc, what)).unwrap()) as mazzulpe::pool::Heard);
    let pool = opened(None, &storage, 64, Options { heard, ..quick() });
    storage.set(0, Way { silent: true, ..Way::default() });
    let (ends, ended) = channel();
    pool.submit("deposit_here", &[1, 5], 0, move |it| ends.send(is_committed(&it)).unwrap()).unwrap();
    println!("silent: {}", from.recv().unwrap() == (0, Some(SILENT)));
    println!("others go on: {}", (0..20).all(|i| is_committed(&pool.call("deposit_there", &[i, 1], 0))));
    println!("no checkpoint: {}", pool.checkpoint(Duration::from_millis(20), |_, _, _| true) == Err(TXNS_OPEN));
    print!(
        "{}",
        pool.print().lines().filter(|it| it.starts_with("component")).map(|it| format!("{it}\n")).collect::<String>()
    );
    storage.set(0, Way::default());
    println!("answers: {}", from.recv().unwrap() == (0, None) && ended.recv().unwrap());
    println!("checkpoint: {:?}", pool.checkpoint(LONG, |dc, incarnation, mark| storage.keep(dc, incarnation, mark)));
    println!("length {}", pool.look(Tc::log_length));
}

/// By the thread of the call's own, where nobody else is under way; and what it meets then.
fn goes_itself() {
    let storage = Storage::new();
    let (to, from) = channel();
    let heard =
        Some(Box::new(move |dc: u16, what: Option<Refusal>| to.send((dc, what)).unwrap()) as mazzulpe::pool::Heard);
    let pool = opened(None, &storage, 64, Options { heard, ..quick() });
    let deposit = || pool.call("deposit_here", &[1, 5], 0);
    let is_own = || {
        storage.of[0].lock().unwrap().carriers.clear();
        is_committed(&deposit()) && storage.of[0].lock().unwrap().carriers == HashSet::from([thread::current().id()])
    };
    println!("by its own thread: {}", (0..100).any(|_| is_own()));
    storage.set(0, Way { silent: true, ..Way::default() });
    thread::scope(|scope| {
        let ended = scope.spawn(deposit);
        println!("silent: {}", from.recv().unwrap() == (0, Some(SILENT)));
        storage.set(0, Way::default());
        println!("answers: {}", from.recv().unwrap() == (0, None) && is_committed(&ended.join().unwrap()));
    });
    println!("by its own thread: {}", (0..100).any(|_| is_own()));
    storage.set(0, Way { diverges: true, ..Way::default() });
    println!("diverged: {}", (0..2).all(|_| deposit().is_err_and(|it| it == DIVERGED)));
}

fn by_threads(path: &Path) {
    let storage = Storage::new();
    let pool = opened(Some(path), &storage, 4, quick());
    for account in 0..20 {
        pool.call("deposit_here", &[account, OPENING], 0).unwrap();
        pool.call("deposit_there", &[account, 0], 0).unwrap();
    }
    for dc in 0..2 {
        storage.set(dc, Way { losing: true, restarts_each: 53 + 44 * dc as u64, ..Way::default() });
    }
    let (is_over, made) = (AtomicBool::new(false), AtomicU64::new(0));
    thread::scope(|scope| {
        let checkpoints = scope.spawn(|| {
            while !is_over.load(SeqCst) {
                let done = pool.checkpoint(LONG, |dc, incarnation, mark| storage.keep(dc, incarnation, mark));
                assert!(matches!(done, Ok(()) | Err(ONE_DOWN | BEHIND)), "{done:?}");
            }
        });
        let works: Vec<_> = (0..THREADS)
            .map(|thread| {
                let (pool, made) = (&pool, &made);
                scope.spawn(move || {
                    for turn in 0..TURNS {
                        let ended = pool.call("move", &[thread, turn * 7 % 20, 1], 0);
                        made.fetch_add(u64::from(is_committed(&ended)), SeqCst);
                        pool.call("touch", &[thread], 0).unwrap();
                    }
                })
            })
            .collect();
        works.into_iter().for_each(|it| it.join().unwrap());
        is_over.store(true, SeqCst);
        checkpoints.join().unwrap();
    });
    let right = (0..THREADS).all(|thread| storage.balance(0, thread) == OPENING - TURNS);
    let sum: u64 = (0..20).map(|account| storage.balance(0, account) + storage.balance(1, account)).sum();
    println!("threads: {} made, each right {right}, the sum stays {}", made.load(SeqCst), sum == 20 * OPENING);
}

fn comes_back(path: &Path) {
    let storage = Storage::new();
    let pool = opened(Some(path), &storage, 64, Options::default());
    (0..20).for_each(|account| drop(pool.call("deposit_here", &[account, 10], 0)));
    storage.set(0, Way { silent: true, ..Way::default() });
    let (to, from) = channel();
    for account in 0..20u64 {
        let (to, name) = (to.clone(), if account < 10 { "deposit_here" } else { "touch" });
        let args = [account, 5];
        let told = move |ended: Result<Ended, Refusal>| to.send(ended.is_err_and(|it| it == NOT_OVER)).unwrap();
        pool.submit(name, &args[..if account < 10 { 2 } else { 1 }], 0, told).unwrap();
    }
    while pool.count().open < 20 {
        thread::yield_now();
    }
    let (mut tc, log) = pool.close(Duration::ZERO);
    println!("left open: {}, {} told", tc.open_count(), from.iter().take(20).filter(|it| *it).count());
    drop((tc, log));
    storage.set(0, Way::default());
    let pool = opened(Some(path), &storage, 4, Options::default());
    println!("came back: {:?}", pool.come_back());
    println!("right: {}", (0..20).all(|account| storage.balance(0, account) == if account < 10 { 15 } else { 10 }));
}

fn ends() {
    let storage = Storage::new();
    let pool = opened(None, &storage, 8, quick());
    storage.set(0, Way { diverges: true, ..Way::default() });
    let (to, from) = channel();
    for i in 0..64 {
        let to = to.clone();
        let told = move |ended: Result<Ended, Refusal>| to.send(ended.is_err_and(|it| it == DIVERGED)).unwrap();
        if pool.submit("deposit_here", &[i % 20, 1], 0, told).is_err() {
            break;
        }
    }
    drop(to);
    println!(
        "diverged: {}",
        from.iter().all(|it| it) && pool.call("deposit_there", &[1, 1], 0).is_err_and(|it| it == DIVERGED)
    );
}

fn main() {
    let folder: PathBuf = std::env::temp_dir().join(format!("mazzulpe-pooled-{}", std::process::id()));
    fs::create_dir(&folder).unwrap();
    calls();
    is_silent();
    goes_itself();
    by_threads(&folder.join("threads.log"));
    comes_back(&folder.join("bank.log"));
    ends();
    fs::remove_dir_all(&folder).unwrap();
}
