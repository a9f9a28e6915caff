//! Threads that share one transaction component behind a mutex, over a map behind another: the lock of
//! the component is never held while an operation is carried. Meanwhile the log begins anew, and later the map
//! is put back from a copy; what it lost is redone.
#[allow(dead_code)]
mod mazzulpe;

use mazzulpe::{
    At, Carried, DC_DOWN, Dc, Event, FORGOTTEN, Key, News, Next, NotAdmitted, Op, Open, Outcome, Program, Ran, Record,
};
use mazzulpe::{NOT_OVER, Refusal, Reply, Said, Slot, TXNS_OPEN, Tc, Value, Wire};
use std::collections::HashMap;
use std::sync::atomic::{AtomicBool, Ordering::Relaxed};
use std::sync::{Condvar, Mutex, MutexGuard};

const THREADS: u64 = 4;
const EACH: u64 = 5000;
const ACCOUNTS: u64 = 10;

/// A data component: it performs each number once, unless it is put back from a copy.
#[derive(Clone, Default)]
struct Store {
    records: HashMap<Record, Value>,
    performed: HashMap<u64, Said>,
    mark: u64,
    incarnation: u64,
}

impl Store {
    /// What it says to a wire, or its news where that is for an earlier incarnation.
    fn perform(&mut self, wire: &Wire) -> Result<Reply, News> {
        if wire.incarnation != self.incarnation {
            return Err(News { incarnation: self.incarnation, mark: self.mark });
        }
        self.mark = self.mark.max(wire.low_water);
        let mark = self.mark;
        self.performed.retain(|number, _| *number > mark);
        let said = match self.performed.get(&wire.number) {
            Some(said) => *said,
            None if wire.number <= mark => Said::Old,
            None => {
                let said = self.operate(&wire.op);
                self.performed.insert(wire.number, said);
                said
            }
        };
        Ok(Reply { number: wire.number, incarnation: self.incarnation, said })
    }

    fn operate(&mut self, op: &Op) -> Said {
        match *op {
            Op::Read(r) => self.records.get(&r).map_or(Said::Absent, |v| Said::Value(*v)),
            Op::Insert(r, v) => match self.records.contains_key(&r) {
                true => Said::Duplicate,
                false => {
                    self.records.insert(r, v);
                    Said::Done
                }
            },
            Op::Update(r, v) => match self.records.get_mut(&r) {
                Some(at) => Said::DoneWas(std::mem::replace(at, v)),
                None => Said::Missing,
            },
            Op::Delete(r) => self.records.remove(&r).map_or(Said::Missing, Said::DoneWas),
        }
    }
}

/// What the threads share.
struct Bank {
    tc: Mutex<Tc>,
    freed: Condvar,
    /// A checkpoint is wanted. It changes under the component's lock.
    closed: AtomicBool,
    store: Mutex<Store>,
}

impl Bank {
    /// Admits a call as soon as no lock is in its way, and no checkpoint is wanted.
    fn admit(&self, procedure: u64, args: &[u64]) -> u64 {
        let mut tc = self.tc.lock().unwrap();
        loop {
            while self.closed.load(Relaxed) {
                tc = self.freed.wait(tc).unwrap();
            }
            match tc.admit(procedure, args) {
                Ok(txn) => return txn,
                Err(NotAdmitted::Busy { .. }) => tc = self.freed.wait(tc).unwrap(),
                Err(refusal) => panic!("{refusal:?}"),
            }
        }
    }

    /// The log begins anew while the threads go on: who wants to be admitted waits until what is open has ended, and
    /// the store has the mark. None is in doubt here.
    fn begin_anew(&self) -> Result<(), Refusal> {
        let mut tc = self.tc.lock().unwrap();
        self.closed.store(true, Relaxed);
        while tc.open_count() > 0 {
            tc = self.freed.wait(tc).unwrap();
        }
        let mark = tc.low_water();
        self.store.lock().unwrap().mark = mark;
        let begun = tc.checkpoint(mark);
        self.closed.store(false, Relaxed);
        self.freed.notify_all();
        begun
    }

    /// Redoes what the store has lost. Whoever comes later finds the news old, or the redo gone on.
    fn redo(&self, news: News) {
        let _known = self.tc.lock().unwrap().told(0, news);
        loop {
            let next = self.tc.lock().unwrap().redo_next(0);
            let Ok(Some(wire)) = next else { return };
            if let Ok(reply) = self.store.lock().unwrap().perform(&wire) {
                let _another_was_first = self.tc.lock().unwrap().redone(0, &reply);
            }
        }
    }

    /// Carries the open request of a transaction until it is answered; each wire twice, as if the first
    /// reply were lost.
    fn carry(&self, txn: u64) {
        loop {
            let wire = self.tc.lock().unwrap().resend(txn);
            let wire = match wire {
                Ok(wire) => wire,
                Err(DC_DOWN) => {
                    std::thread::yield_now();
                    continue;
                }
                Err(refusal) => panic!("{refusal:?}"),
            };
            let _lost = self.store.lock().unwrap().perform(&wire);
            let said = self.store.lock().unwrap().perform(&wire);
            match said {
                Ok(reply) => {
                    if self.tc.lock().unwrap().answer(txn, &reply).is_ok() {
                        return;
                    }
                }
                Err(news) => self.redo(news),
            }
        }
    }

    fn run(&self, procedure: u64, args: &[u64]) -> Outcome {
        let txn = self.admit(procedure, args);
        let mut undoing = false;
        loop {
            let mut tc: MutexGuard<Tc> = self.tc.lock().unwrap();
            let next = if undoing { tc.undo(txn) } else { tc.ask(txn) }.unwrap();
            match next {
                Next::Request(_) | Next::Down(_) => {
                    drop(tc);
                    self.carry(txn);
                }
                Next::Undoing => undoing = true,
                Next::Running => undoing = false,
                Next::Over => {
                    let outcome = tc.end(txn).unwrap().outcome;
                    self.freed.notify_all();
                    return outcome;
                }
                Next::Stuck(_) | Next::Waits(_) => panic!("{next:?}"),
            }
        }
    }

    /// The transfers of one thread, and how many committed.
    fn transfers(&self, procedure: u64, seed: u64) -> usize {
        let mut x = seed;
        (0..EACH)
            .filter(|_| {
                x = x.wrapping_mul(6364136223846793005).wrapping_add(1442695040888963407);
                let from = (x >> 33) % ACCOUNTS;
                let args = [from, (from + 1 + (x >> 40) % (ACCOUNTS - 1)) % ACCOUNTS, (x >> 50) % 60];
                self.run(procedure, &args) == Outcome::Committed
            })
            .count()
    }

    /// The store is put back from a copy of before.
    fn put_back(&self, copy: Store) {
        let mut store = self.store.lock().unwrap();
        let incarnation = store.incarnation + 1;
        *store = Store { incarnation, ..copy };
    }
}

/// From each beginning of its log another component comes back, with the same requests open.
fn come_back(tc: &mut Tc) -> Result<(), Refusal> {
    let rows = (0..tc.log_length()).map(|place| tc.log_bytes(place)).collect::<Result<Vec<_>, _>>()?;
    let notes = [tc.noted(0)?, tc.noted(1)?];
    let mut open = 0;
    for count in 0..=rows.len() {
        let mut other = Tc::new(2)?;
        other.load_object_file("build/bank.o").map_err(|(refusal, ..)| refusal)?;
        other.recover(&rows[..count], &notes).map_err(|(refusal, _)| refusal)?;
        assert_eq!(other.log_length(), count as u64);
        if let Ok(Open { txn, waits: Some((number, op)), held: false, .. }) = other.open_from(0) {
            assert_eq!(number, other.last_number());
            assert!(matches!(other.retake(txn)?, Next::Request(wire) if wire.op.record() == op.record()));
            open += 1;
        }
    }
    println!("came back with a request open {open} times");
    Ok(())
}

/// The bank over two data components of the library, by one thread: the rest of the interface once.
fn in_memory() -> Result<(), Refusal> {
    const TRIES: u32 = 3;
    let mut tc = Tc::new(2)?;
    let mut dcs = [Dc::new(100, 100)?, Dc::new(100, 100)?];
    let carry = |dcs: &mut [Dc; 2], wire: &Wire| {
        dcs[usize::from(wire.op.record().dc)].perform(wire).map_or(Carried::Lost, Carried::Replied)
    };
    tc.load_object_file("build/bank.o").map_err(|(refusal, ..)| refusal)?;
    for (name, args) in [("deposit_here", &[1, 100][..]), ("deposit_there", &[2, 100]), ("move", &[1, 2, 30])] {
        let procedure = tc.find(name)?;
        let txn = tc.admit(procedure, args).expect("nothing in the way");
        println!("{name} blocked {} {:?}", tc.blocked(procedure, args)?, tc.checkpoint(0) == Err(TXNS_OPEN));
        println!("{name} {:?}", tc.run(txn, TRIES, |wire| carry(&mut dcs, wire))?);
    }
    tc.told(1, dcs[1].restart()?)?;
    println!("down {:?}, up {}", tc.site(1)?, tc.redo(1, TRIES, |wire| carry(&mut dcs, wire))?);
    let deposit = tc.find("deposit_there")?;
    let txn = tc.admit(deposit, &[7, 1]).expect("nothing in the way");
    let always = |_: &Wire| dcs[1].restart().map_or(Carried::Lost, Carried::Restarted);
    println!("a restart at each wire: {:?}", tc.run(txn, TRIES, always)?);
    println!("an outage: {:?}", tc.run(txn, TRIES, |_| Carried::Lost)?);
    tc.redo(1, TRIES, |wire| carry(&mut dcs, wire))?;
    println!("a longer one: {:?}", tc.run(txn, TRIES, |_| Carried::Lost)?);
    let waiting = tc.waiting_from(1, 0)?;
    println!("{} waits for data component 1, and holds {:?}", waiting.txn, tc.lock_at(waiting.place, 0)?);
    tc.give_up(txn)?;
    assert_eq!(tc.run(txn, TRIES, |wire| carry(&mut dcs, wire))?, Ran::Waits);
    assert!(matches!(tc.retake(txn)?, Next::Request(_)));
    assert_eq!(tc.result(txn, 0), Err(NOT_OVER));
    assert_eq!(tc.run_until_over(txn, TRIES, |wire| carry(&mut dcs, wire))?, Ran::Over(()));
    println!("{txn} holds {:?}", tc.result(txn, 0)?.map(|value| value[0]));
    assert_eq!(tc.end(txn)?.outcome, Outcome::Committed);
    let (mark, mut before) = (tc.low_water(), dcs[0].restart()?);
    for dc in 0..2 {
        tc.told(dc, if dc == 0 { before } else { dcs[1].restart()? })?;
        tc.redo(dc, TRIES, |wire| carry(&mut dcs, wire))?;
        let (incarnation, _) = tc.site(dc)?;
        dcs[usize::from(dc)].hear_mark(incarnation, mark)?;
        dcs[usize::from(dc)].checkpoint()?;
        println!("data component {dc} forgot {}", dcs[usize::from(dc)].forget()?);
    }
    println!("{} events, {} open", tc.log_length(), tc.open_count());
    come_back(&mut tc)?;
    tc.checkpoint(mark)?;
    let Event::Checkpoint { admitted, given } = tc.log_at(0)? else { panic!("another event") };
    println!("{} event, behind transaction {admitted} and number {given}", tc.log_length());
    before.incarnation += 1;
    println!("news of an older mark: {}", tc.told(0, before).unwrap_err().code_text());
    assert_eq!(tc.told(0, before), Err(FORGOTTEN));
    for dc in &mut dcs {
        for place in 0..dc.rows() {
            let (record, value) = dc.row(place)?;
            assert_eq!(dc.get(&record)?, Some(value));
            println!(
                "row {}/{}/{} {}",
                record.dc,
                record.table,
                record.key,
                u64::from_le_bytes(value[..8].try_into().unwrap())
            );
        }
    }
    Ok(())
}

/// A procedure by itself, whose reads and writes are answered here.
fn alone() -> Result<(), Refusal> {
    let mut program = Program::new()?;
    let slot = Slot { write: true, dc: 0, table: 0, key: Key::Argument(0) };
    let code = std::fs::read("build/deposit_here.bin").expect("the code");
    program.verify(&code, &[slot], 2).map_err(|(refusal, _)| refusal)?;
    let mut stop = program.run(&[1, 5])?;
    while let At::Operation(op) = stop.at {
        let said = match op {
            Op::Read(_) => Said::Absent,
            Op::Insert(..) => Said::Done,
            Op::Update(..) | Op::Delete(_) => Said::Missing,
        };
        stop = program.resume(&said)?;
    }
    println!("alone {:?}", stop.at);
    Ok(())
}

fn main() {
    in_memory().unwrap();
    alone().unwrap();
    let slot = |write, argument| Slot { write, dc: 0, table: 0, key: Key::Argument(argument) };
    let read = |name: &str| std::fs::read(format!("build/{name}.bin")).expect("the code");
    let mut tc = Tc::new(1).unwrap();
    let deposit = tc.load("deposit", &read("deposit_here"), &[slot(true, 0)], 2).unwrap();
    let transfer = tc.load("move", &read("move"), &[slot(true, 0), slot(true, 1)], 3).unwrap();
    println!("{:?}", tc.load("weak", &read("move"), &[slot(true, 0), slot(false, 1)], 3).unwrap_err().0);
    let bank = Bank {
        tc: Mutex::new(tc),
        freed: Condvar::new(),
        closed: AtomicBool::new(false),
        store: Mutex::new(Store::default()),
    };
    for account in 0..ACCOUNTS {
        bank.run(deposit, &[account, 100]);
    }
    let committed: usize = std::thread::scope(|scope| {
        let workers: Vec<_> = (0..THREADS)
            .map(|w| {
                scope.spawn({
                    let bank = &bank;
                    move || bank.transfers(transfer, w + 1)
                })
            })
            .collect();
        std::thread::sleep(std::time::Duration::from_millis(10));
        bank.begin_anew().unwrap();
        let copy = bank.store.lock().unwrap().clone();
        std::thread::sleep(std::time::Duration::from_millis(10));
        bank.put_back(copy);
        workers.into_iter().map(|w| w.join().unwrap()).sum()
    });
    assert!(committed > 0);
    let sum: u64 =
        bank.store.lock().unwrap().records.values().map(|v| u64::from_le_bytes(v[..8].try_into().unwrap())).sum();
    println!("{} transfers by {THREADS} threads, sum {sum}", THREADS * EACH);
}
