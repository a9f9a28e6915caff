//! A bank with a log in a file: four threads put money in, it dies in the middle of a call, and the next life comes back from
//! the file, torn as it is, over the storage that outlived it. Then one takes over from another over a device that compares
//! epochs. It says what it saw.
#[allow(dead_code)]
mod mazzulpe;

use mazzulpe::log::{Device, Log, LogError, SharedDevice};
use mazzulpe::{
    BAD_ARGUMENT, Carried, DAMAGED, DEPOSED, DIVERGED, Dc, LOG_FAILED, LOG_IN_USE, NO_SESSION, Next, Outcome, Ran, Refusal,
    SESSION_STAYS, Said, Tc, Wire,
};
use std::fs;
use std::io;
use std::path::Path;
use std::sync::Mutex;
use std::sync::atomic::{AtomicU64, Ordering::Relaxed};

const THREADS: u64 = 4;
const EACH: u64 = 50;
/// Where a file says its session: behind 24 bytes of the first frame and 64 of the header.
const SESSION_AT: usize = 88;

type Failed = Box<dyn std::error::Error>;

impl std::fmt::Display for LogError {
    fn fmt(&self, f: &mut std::fmt::Formatter<'_>) -> std::fmt::Result {
        write!(f, "{self:?}")
    }
}

impl std::error::Error for LogError {}

fn told(refusal: Refusal) -> Failed {
    format!("{refusal:?}").into()
}

fn started() -> Result<Tc, Failed> {
    let mut tc = Tc::new(2).map_err(told)?;
    tc.load_object(&fs::read("build/bank.o")?).map_err(|it| format!("{it:?}"))?;
    Ok(tc)
}

/// Storage that outlives the transaction component, and what it was sent.
struct Storage {
    dcs: [Mutex<Dc>; 2],
    sessions: Mutex<Vec<u64>>,
}

impl Storage {
    fn new() -> Result<Storage, Failed> {
        let dc = || Dc::new(100, 10000).map(Mutex::new).map_err(told);
        Ok(Storage { dcs: [dc()?, dc()?], sessions: Mutex::new(Vec::new()) })
    }

    fn carry(&self, wire: &Wire) -> Carried {
        let mut sessions = self.sessions.lock().unwrap();
        if !sessions.contains(&wire.session) {
            sessions.push(wire.session);
        }
        let mut dc = self.dcs[usize::from(wire.op.record().dc)].lock().unwrap();
        dc.perform(wire).map_or(Carried::Lost, Carried::Replied)
    }
}

/// A deposit to its end: what is to be written ahead is synced without the lock.
fn deposit<D: Device>(tc: &Mutex<Tc>, log: &Log<D>, storage: &Storage, account: u64) -> Result<Outcome, Failed> {
    let txn = {
        let mut tc = tc.lock().unwrap();
        let procedure = tc.find("deposit_here").map_err(told)?;
        tc.admit(procedure, &[account, 1]).map_err(|it| format!("{it:?}"))?
    };
    loop {
        let (next, until) = {
            let mut tc = tc.lock().unwrap();
            let next = tc.ask(txn).map_err(told)?;
            (next, log.write(&mut tc)?)
        };
        log.sync(until)?;
        match next {
            Next::Request(wire) => {
                let Carried::Replied(reply) = storage.carry(&wire) else { return Err("nobody answers".into()) };
                tc.lock().unwrap().answer(txn, &reply).map_err(told)?;
            }
            _ => break,
        }
    }
    let (receipt, until) = {
        let mut tc = tc.lock().unwrap();
        (tc.end(txn).map_err(told)?, log.write(&mut tc)?)
    };
    log.sync(until)?;
    Ok(receipt.outcome)
}

fn lives(path: &Path, storage: &Storage) -> Result<(), Failed> {
    let mut tc = started()?;
    let (log, found) = Log::open(&mut tc, path)?;
    println!("begun: {found:?}");
    let tc = Mutex::new(tc);
    let committed = AtomicU64::new(0);
    std::thread::scope(|scope| {
        for account in 0..THREADS {
            let (tc, log, committed) = (&tc, &log, &committed);
            scope.spawn(move || {
                for _ in 0..EACH {
                    let outcome = deposit(tc, log, storage, account).unwrap();
                    committed.fetch_add(u64::from(matches!(outcome, Outcome::Committed)), Relaxed);
                }
            });
        }
    });
    println!("{} committed", committed.load(Relaxed));
    // A wire is carried, and nobody takes the reply.
    let mut tc = tc.lock().unwrap();
    let procedure = tc.find("deposit_here").map_err(told)?;
    let txn = tc.admit(procedure, &[0, 1]).map_err(|it| format!("{it:?}"))?;
    let Next::Request(wire) = tc.ask(txn).map_err(told)? else { return Err("nothing is asked".into()) };
    log.keep(&mut tc)?;
    storage.carry(&wire);
    Ok(())
}

/// A frame has its number, its length and a checksum, 8 bytes each, and then so many bytes. How many there are.
fn frames(mut bytes: &[u8]) -> u64 {
    let mut count = 0;
    while let Some(length) = bytes.get(8..16) {
        let length = u64::from_le_bytes(length.try_into().expect("8 bytes"));
        bytes = &bytes[24 + length as usize..];
        count += 1;
    }
    count
}

/// The same log in layout 1 or 2: without the session.
fn without_session(whole: &[u8]) -> Vec<u8> {
    let mut old = [&whole[..SESSION_AT], &whole[SESSION_AT + 8..]].concat();
    let length = whole[8] - 8;
    old[8] = length;
    old[32] -= 2;
    let hashed = |hash: u64, byte: &u8| (hash ^ u64::from(*byte)).wrapping_mul(0x100_0000_01b3);
    let number = old[..16].iter().fold(0xcbf2_9ce4_8422_2325, hashed);
    let checksum = old[24..24 + length as usize].iter().fold(number, hashed);
    old[16..24].copy_from_slice(&checksum.to_le_bytes());
    old
}

fn comes_back(path: &Path, storage: &Storage) -> Result<(), Failed> {
    let mut bytes = fs::read(path)?;
    let torn = frames(&bytes).to_le_bytes();
    bytes.extend_from_slice(&torn);
    fs::write(path, &bytes)?;
    let mut tc = started()?;
    let (log, found) = Log::open(&mut tc, path)?;
    println!("back: {found:?}, {} open", tc.open_count());
    let open = tc.open_from(0).map_err(told)?;
    tc.retake(open.txn).map_err(told)?;
    let ran = tc.run(open.txn, 3, |wire| storage.carry(wire)).map_err(told)?;
    log.keep(&mut tc)?;
    println!("{}", if matches!(ran, Ran::Over(_)) { "the open one ended" } else { "the open one is open" });
    println!("sessions: {}", storage.sessions.lock().unwrap().len());
    let low_water = tc.low_water();
    log.checkpoint(&mut tc, low_water)?;
    let other = Log::open(&mut started()?, path).map(|_| ());
    println!("opened twice: {}", matches!(other, Err(LogError::Refused(LOG_IN_USE, 0))));
    drop(log);
    println!("set again: {}", tc.set_session(1).is_err_and(|it| it == SESSION_STAYS));
    let whole = fs::read(path)?;
    let mut changed = whole.clone();
    changed[SESSION_AT] ^= 1;
    fs::write(path, &changed)?;
    let other = Log::open(&mut started()?, path).map(|_| ());
    println!("its session changed: {}", matches!(other, Err(LogError::Refused(DAMAGED, 0))));
    fs::write(path, without_session(&whole))?;
    let other = Log::open(&mut started()?, path).map(|_| ());
    println!("without its session: {}", matches!(other, Err(LogError::Refused(NO_SESSION, 0))));
    fs::write(path.with_extension("log.session"), "00000000000000ff\n")?;
    let mut tc = started()?;
    let (_, found) = Log::open(&mut tc, path)?;
    println!("with it beside: {}, {found:?}", tc.session());
    Ok(())
}

/// A device whose sync fails.
struct Failing;

impl Device for Failing {
    fn append(&self, _bytes: &[u8]) -> io::Result<()> {
        Ok(())
    }

    fn sync(&self) -> io::Result<()> {
        Err(io::Error::other("no disk"))
    }

    fn replace(&self, _bytes: &[u8]) -> io::Result<()> {
        Ok(())
    }
}

fn fails(storage: &Storage) -> Result<(), Failed> {
    let mut tc = started()?;
    let log = Log::over(&mut tc, Failing)?;
    let tc = Mutex::new(tc);
    log.keep(&mut tc.lock().unwrap())?;
    let first = deposit(&tc, &log, storage, 9).is_err();
    let again = log.keep(&mut tc.lock().unwrap());
    println!("a sync that fails: {first}, {}", matches!(again, Err(LogError::Refused(LOG_FAILED, 0))));
    Ok(())
}

/// What several writers share: the bytes, and the epoch of the last one that took over.
#[derive(Default)]
struct Home {
    bytes: Vec<u8>,
    epoch: u64,
}

struct Writer<'a> {
    home: &'a Mutex<Home>,
    epoch: AtomicU64,
}

impl<'a> Writer<'a> {
    fn new(home: &'a Mutex<Home>) -> Writer<'a> {
        Writer { home, epoch: AtomicU64::new(0) }
    }

    fn changes(&self, change: impl FnOnce(&mut Vec<u8>)) -> io::Result<()> {
        let mut home = self.home.lock().unwrap();
        if home.epoch != self.epoch.load(Relaxed) {
            return Err(io::Error::other("another epoch"));
        }
        change(&mut home.bytes);
        Ok(())
    }
}

impl Device for Writer<'_> {
    fn append(&self, bytes: &[u8]) -> io::Result<()> {
        self.changes(|all| all.extend_from_slice(bytes))
    }

    fn sync(&self) -> io::Result<()> {
        self.changes(|_| ())
    }

    fn replace(&self, bytes: &[u8]) -> io::Result<()> {
        self.changes(|all| *all = bytes.to_vec())
    }
}

impl SharedDevice for Writer<'_> {
    fn read(&self) -> Result<(Vec<u8>, u64), LogError> {
        let mut home = self.home.lock().unwrap();
        home.epoch += 1;
        self.epoch.store(home.epoch, Relaxed);
        Ok((home.bytes.clone(), 7))
    }
}

fn succeeds() -> Result<(), Failed> {
    let (home, storage) = (Mutex::new(Home::default()), Storage::new()?);
    let (mut former, mut now) = (started()?, started()?);
    let (former_log, found) = Log::take_over(&mut former, Writer::new(&home))?;
    println!("taken over: {found:?}, session {}", former.session());
    let former = Mutex::new(former);
    deposit(&former, &former_log, &storage, 20)?;
    former_log.check()?;
    let (now_log, found) = Log::take_over(&mut now, Writer::new(&home))?;
    println!("taken over: {found:?}, session {}", now.session());
    let length = home.lock().unwrap().bytes.len();
    let check = former_log.check().is_err();
    let call = deposit(&former, &former_log, &storage, 21).is_err();
    println!("the former one: {check}, {call}, {}", home.lock().unwrap().bytes.len() == length);
    println!("the one of now: {:?}", deposit(&Mutex::new(now), &now_log, &storage, 22)?);
    home.lock().unwrap().bytes.pop();
    let torn = Log::take_over(&mut started()?, Writer::new(&home)).map(|_| ());
    println!("an end that isn't whole: {}", matches!(torn, Err(LogError::Refused(DAMAGED, 0))));
    Ok(())
}

/// A data component that says what can't be, and what undoes an abort: `touch` reads (2), updates (3), and undoes (4).
fn what_cannot_be() -> Result<(), Failed> {
    let (mut tc, mut dc) = (started()?, Dc::new(100, 1000).map_err(told)?);
    let admitted = |tc: &mut Tc, name: &str, args: &[u64]| -> Result<u64, Failed> {
        let procedure = tc.find(name).map_err(told)?;
        tc.admit(procedure, args).map_err(|it| format!("{it:?}").into())
    };
    let carried = |dc: &mut Dc, wire: &Wire, said: Option<Said>| {
        let reply = dc.perform(wire);
        reply.map_or(Carried::Lost, |it| Carried::Replied(mazzulpe::Reply { said: said.unwrap_or(it.said), ..it }))
    };
    let txn = admitted(&mut tc, "deposit_here", &[1, 5])?;
    let deposed = tc.run(txn, 3, |wire| carried(&mut dc, wire, Some(Said::Old))).is_err_and(|it| it == DEPOSED);
    let number = tc.refused_reply().map(|(_, reply)| reply.number);
    println!("deposed: {deposed}, number {number:?}");
    tc.run(txn, 3, |wire| carried(&mut dc, wire, None)).map_err(told)?;
    let news = dc.restart().map_err(told)?;
    tc.told(0, news).map_err(told)?;
    let diverged = tc.redo(0, 3, |wire| carried(&mut dc, wire, Some(Said::Duplicate))).is_err_and(|it| it == DIVERGED);
    let number = tc.refused_reply().map(|(_, reply)| reply.number);
    println!("diverged: {diverged}, number {number:?}");
    tc.redo(0, 3, |wire| carried(&mut dc, wire, None)).map_err(told)?;
    let txn = admitted(&mut tc, "touch", &[1])?;
    let mut undoes = Vec::new();
    let ran = tc.run(txn, 3, |wire| {
        undoes.push((wire.number, wire.undoes));
        if wire.undoes { Carried::Lost } else { carried(&mut dc, wire, None) }
    });
    println!("an undo that isn't answered: {:?}, {undoes:?}", ran.map_err(told)?);
    println!("sent again: {}", tc.resend(txn).map_err(told)?.undoes);
    println!("{:?}", tc.count());
    let high = tc.told(0, mazzulpe::News { incarnation: (1 << 62) + 1, mark: 0 }).is_err_and(|it| it == BAD_ARGUMENT);
    println!("news above 2^62: {high}, redo: {:?}", tc.redo_at(0));
    Ok(())
}

fn main() -> Result<(), Failed> {
    let folder = std::env::temp_dir().join(format!("mazzulpe-rust-{}", std::process::id()));
    fs::create_dir(&folder)?;
    let path = folder.join("bank.log");
    let storage = Storage::new()?;
    let seen = lives(&path, &storage).and_then(|()| comes_back(&path, &storage)).and_then(|()| fails(&storage));
    succeeds()?;
    what_cannot_be()?;
    fs::remove_dir_all(&folder)?;
    seen
}
