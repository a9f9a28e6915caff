//! The log of a transaction component in a file, as `mazzulpe_log.h` documents it, in the format of `procd run --log`.
//!
//! ```text
//! let (log, found) = Log::open(&mut tc, Path::new("bank.log"))?; // behind the procedures
//! let until = log.write(&mut tc)?;  // under the lock of tc: behind the calls that ask, answer and end
//! log.sync(until)?;                 // without it: before a wire is carried, and before anyone is told; puts out all at once
//! ```

use super::{DAMAGED, LOG_FAILED, LOG_IN_USE, MEMORY, NO_LOG, NO_SESSION, Refusal, Tc};
use std::ffi::OsString;
use std::fs::{File, OpenOptions, TryLockError, rename};
use std::io::{self, Read, Write};
use std::os::unix::fs::MetadataExt;
use std::path::{Path, PathBuf};
use std::sync::atomic::{AtomicBool, Ordering::SeqCst};
use std::sync::{Arc, Condvar, Mutex, MutexGuard};
use std::thread::sleep;
use std::time::Duration;

/// Where so many are gathered the device gets them.
const MOST: usize = 1 << 20;

/// Where a log's bytes are kept. What fails once is final. One function is called at a time, by any thread.
pub trait Device {
    /// Puts these bytes behind the others.
    fn append(&self, bytes: &[u8]) -> io::Result<()>;
    /// What was put there outlives a loss of power from now on.
    fn sync(&self) -> io::Result<()>;
    /// These bytes take the place of all others, for good: a crash finds the former or these.
    fn replace(&self, bytes: &[u8]) -> io::Result<()>;
}

/// A device that outlives its machine, reached from several: it compares the epoch of whoever took over with each append and replace,
/// and refuses those of an earlier one.
pub trait SharedDevice: Device {
    /// All its bytes, and the number that [`Tc::session`] answers, made where there is none. From then on `append`, `sync` and `replace`
    /// of whoever read before fail.
    fn read(&self) -> Result<(Vec<u8>, u64), LogError>;
}

#[derive(Debug)]
pub enum LogError {
    /// Not done, at this frame, event or data component.
    Refused(Refusal, u64),
    /// The file can't be read, written or synced.
    Failed(io::Error),
}

impl From<Refusal> for LogError {
    fn from(refusal: Refusal) -> LogError {
        LogError::Refused(refusal, 0)
    }
}

impl From<io::Error> for LogError {
    fn from(error: io::Error) -> LogError {
        LogError::Failed(error)
    }
}

/// What [`Log::open`] found: the log's events, and how many bytes were cut off.
#[derive(Clone, Copy, Debug, PartialEq, Eq)]
pub struct Found {
    pub events: u64,
    pub dropped: u64,
}

/// What is gathered, and how many bytes were handed out, are at the device, and stay there; `busy`: a thread is in the device.
#[derive(Default)]
struct Progress {
    gathered: Vec<u8>,
    written: u64,
    put: u64,
    synced: u64,
    busy: bool,
}

pub struct Log<D: Device = LogFile> {
    device: D,
    failed: AtomicBool,
    progress: Mutex<Progress>,
    done: Condvar,
}

/// Puts the bytes that are prepared behind these.
fn prepared(tc: &mut Tc, bytes: &mut Vec<u8>) -> Result<(), Refusal> {
    let count = tc.file_ahead()? as usize;
    let all = bytes.len() + count;
    bytes.try_reserve(count + 256).map_err(|_| MEMORY)?;
    while bytes.len() < all {
        tc.file_bytes(bytes)?;
    }
    Ok(())
}

impl<D: Device> Log<D> {
    /// Over a device whose bytes [`Tc::file_back`] has come back from, and which ends behind those that are whole; one that
    /// begins gets a session of its own, unless [`Tc::set_session`] gave one. `SESSION_STAYS`: it has wires and no session.
    pub fn over(tc: &mut Tc, device: D) -> Result<Log<D>, LogError> {
        if tc.session() == 0 {
            tc.set_session(new_session()?)?;
        }
        Ok(Log {
            device,
            failed: AtomicBool::new(false),
            progress: Mutex::new(Progress::default()),
            done: Condvar::new(),
        })
    }

    fn locked(&self) -> MutexGuard<'_, Progress> {
        self.progress.lock().expect("nobody panics under it")
    }

    fn is_whole(&self) -> Result<(), Refusal> {
        if self.failed.load(SeqCst) { Err(LOG_FAILED) } else { Ok(()) }
    }

    /// What the device answered, kept in mind where it failed.
    fn seen(&self, answered: io::Result<()>) -> Result<(), LogError> {
        if answered.is_err() {
            self.failed.store(true, SeqCst);
        }
        Ok(answered?)
    }

    /// Behind the device: whoever waits looks again.
    fn ended(&self, answered: io::Result<()>, put: u64, synced: Option<u64>) -> Result<(), LogError> {
        let seen = self.seen(answered);
        let mut progress = self.locked();
        if seen.is_ok() {
            progress.put = put;
            progress.synced = synced.unwrap_or(progress.synced);
        }
        progress.busy = false;
        self.done.notify_all();
        seen
    }

    /// These bytes are a file from its first frame on, and take the place of all, what is gathered too.
    fn replace(&self, bytes: &[u8]) -> Result<u64, LogError> {
        let mut progress = self.done.wait_while(self.locked(), |it| it.busy).expect("nobody panics under it");
        progress.busy = true;
        progress.gathered.clear();
        progress.written += bytes.len() as u64;
        let written = progress.written;
        drop(progress);
        self.ended(self.device.replace(bytes), written, Some(written))?;
        Ok(written)
    }

    /// Gathers what has happened, under the lock of the transaction component; [`Log::sync`] of the number makes it stay. Behind a
    /// checkpoint a new file takes the old one's place.
    pub fn write(&self, tc: &mut Tc) -> Result<u64, LogError> {
        self.is_whole()?;
        let mut progress = self.locked();
        let before = progress.gathered.len();
        prepared(tc, &mut progress.gathered)?;
        if progress.gathered[before..].starts_with(&[0; 8]) {
            let bytes = progress.gathered.split_off(before);
            drop(progress);
            return self.replace(&bytes);
        }
        progress.written += (progress.gathered.len() - before) as u64;
        let (written, is_much) = (progress.written, progress.gathered.len() > MOST);
        drop(progress);
        if is_much {
            self.flush(written)?;
        }
        Ok(written)
    }

    fn reach(&self, until: u64, syncs: bool) -> Result<(), LogError> {
        let has_reached = |it: &Progress| until <= if syncs { it.synced } else { it.put };
        let wait = |it: &mut Progress| it.busy && !has_reached(it) && !self.failed.load(SeqCst);
        let progress = self.done.wait_while(self.locked(), wait).expect("nobody panics under it");
        self.is_whole()?;
        if has_reached(&progress) { Ok(()) } else { self.put_out(progress, syncs) }
    }

    /// Puts all that is gathered into the device, which is nobody's, and syncs it where that is wanted.
    fn put_out(&self, mut progress: MutexGuard<'_, Progress>, syncs: bool) -> Result<(), LogError> {
        progress.busy = true;
        let (bytes, all) = (std::mem::take(&mut progress.gathered), progress.written);
        drop(progress);
        let put = if bytes.is_empty() { Ok(()) } else { self.device.append(&bytes) };
        let answered = if syncs { put.and_then(|()| self.device.sync()) } else { put };
        self.ended(answered, all, syncs.then_some(all))
    }

    /// What was written up to there stays, with all that others have written by now. One thread is in the device at a time; who
    /// waits finds its own done by that, or does the next.
    pub fn sync(&self, until: u64) -> Result<(), LogError> {
        self.reach(until, true)
    }

    /// The same without the sync: the device has it, so that it outlives this process.
    pub fn flush(&self, until: u64) -> Result<(), LogError> {
        self.reach(until, false)
    }

    /// Whether the device still takes ours: a sync, also where nothing is new. One that another has taken over from, and that has
    /// nothing to append, learns so by this alone.
    pub fn check(&self) -> Result<(), LogError> {
        let progress = self.done.wait_while(self.locked(), |it| it.busy).expect("nobody panics under it");
        self.is_whole()?;
        self.put_out(progress, true)
    }

    /// Writes what has happened and makes it stay.
    pub fn keep(&self, tc: &mut Tc) -> Result<(), LogError> {
        let until = self.write(tc)?;
        self.sync(until)
    }

    /// [`Tc::checkpoint`], and the file begins anew.
    pub fn checkpoint(&self, tc: &mut Tc, kept: u64) -> Result<(), LogError> {
        self.is_whole()?;
        tc.checkpoint(kept)?;
        self.write(tc).map(|_| ())
    }
}

impl<D: SharedDevice> Log<D> {
    /// Takes over from whoever wrote to the device before, behind the procedures of a transaction component in which nothing has
    /// happened: comes back from its bytes, and goes on in the same session.
    pub fn take_over(tc: &mut Tc, device: D) -> Result<(Log<D>, Found), LogError> {
        let (bytes, session) = device.read()?;
        if session == 0 {
            return Err(NO_SESSION.into());
        }
        tc.set_session(session)?;
        let whole = tc.file_back(&bytes).map_err(|(refusal, place)| LogError::Refused(refusal, place))?;
        if whole != bytes.len() as u64 {
            return Err(DAMAGED.into());
        }
        let found = Found { events: tc.log_length(), dropped: 0 };
        let log = Log::over(tc, device)?;
        log.keep(tc)?;
        Ok((log, found))
    }
}

impl<D: Device> Drop for Log<D> {
    /// The device gets what is gathered.
    fn drop(&mut self) {
        let written = self.locked().written;
        let _too_late_to_tell = self.flush(written);
    }
}

/// A file that nobody else has.
pub struct LogFile {
    path: PathBuf,
    file: Mutex<Arc<File>>,
}

fn beside(path: &Path, ending: &str) -> PathBuf {
    let mut name = OsString::from(path);
    name.push(ending);
    PathBuf::from(name)
}

fn sync_folder(path: &Path) -> io::Result<()> {
    let folder = path.parent().filter(|it| !it.as_os_str().is_empty()).unwrap_or(Path::new("."));
    File::open(folder)?.sync_all()
}

fn locked(file: &File) -> Result<(), LogError> {
    match file.try_lock() {
        Ok(()) => Ok(()),
        Err(TryLockError::WouldBlock) => Err(LOG_IN_USE.into()),
        Err(TryLockError::Error(error)) => Err(error.into()),
    }
}

/// A file with these bytes, for good: PATH.new, which is renamed to PATH.
fn renamed(path: &Path, bytes: &[u8]) -> io::Result<File> {
    let new = beside(path, ".new");
    let mut file = OpenOptions::new().read(true).write(true).create(true).truncate(true).open(&new)?;
    file.try_lock()?;
    file.write_all(bytes)?;
    file.sync_all()?;
    rename(&new, path)?;
    sync_folder(path)?;
    Ok(file)
}

/// Whether the bytes begin with the frame of a header of layout 1 or 2, which says no session.
fn is_sessionless(bytes: &[u8]) -> bool {
    bytes.len() >= 88 && bytes[24..32] == *b"mazzulpe" && bytes[32] <= 2 && bytes[33..40] == [0; 7]
}

/// The number in PATH.session, if it is there.
fn session_of(path: &Path) -> Option<u64> {
    let text = std::fs::read_to_string(beside(path, ".session")).ok()?;
    let digits = text.strip_suffix('\n').filter(|it| it.len() == 16)?;
    u64::from_str_radix(digits, 16).ok().filter(|&it| it != 0)
}

/// A number that nobody had.
fn new_session() -> io::Result<u64> {
    let mut bytes = [0; 8];
    File::open("/dev/urandom")?.read_exact(&mut bytes)?;
    Ok(u64::from_le_bytes(bytes) | 1)
}

/// Cuts the file behind its whole frames; what is cut off is put behind PATH.dropped first.
fn cut(path: &Path, file: &File, bytes: &[u8], whole: usize) -> io::Result<()> {
    if whole == bytes.len() {
        return Ok(());
    }
    let mut dropped = OpenOptions::new().append(true).create(true).open(beside(path, ".dropped"))?;
    dropped.write_all(&bytes[whole..])?;
    dropped.sync_all()?;
    sync_folder(path)?;
    file.set_len(whole as u64)?;
    file.sync_all()
}

impl LogFile {
    /// A child of a killed process has its descriptors until it calls exec or ends, and with them its lock: so a file
    /// that is in use is tried again for half a second.
    fn open(path: &Path) -> Result<File, LogError> {
        for _ in 1..50 {
            match Self::open_now(path) {
                Err(LogError::Refused(LOG_IN_USE, _)) => sleep(Duration::from_millis(10)),
                opened => return opened,
            }
        }
        Self::open_now(path)
    }

    fn open_now(path: &Path) -> Result<File, LogError> {
        // (a FIFO, a folder or a device isn't opened)
        if std::fs::metadata(path).is_ok_and(|it| !it.is_file()) {
            return Err(NO_LOG.into());
        }
        let file = OpenOptions::new().read(true).append(true).create(true).open(path)?;
        locked(&file)?;
        let (is, there) = (file.metadata()?, std::fs::metadata(path)?);
        if (is.dev(), is.ino()) == (there.dev(), there.ino()) { Ok(file) } else { Err(LOG_IN_USE.into()) }
    }

    fn file(&self) -> Arc<File> {
        Arc::clone(&self.file.lock().expect("nobody panics under it"))
    }
}

impl Device for LogFile {
    fn append(&self, bytes: &[u8]) -> io::Result<()> {
        (&*self.file()).write_all(bytes)
    }

    fn sync(&self) -> io::Result<()> {
        self.file().sync_data()
    }

    fn replace(&self, bytes: &[u8]) -> io::Result<()> {
        let file = renamed(&self.path, bytes)?;
        *self.file.lock().expect("nobody panics under it") = Arc::new(file);
        Ok(())
    }
}

impl Log<LogFile> {
    /// Opens the log of a transaction component in which nothing has happened, behind its procedures: comes back from the
    /// file, or begins it where it is empty or not there. A file that is refused stays as it was.
    pub fn open(tc: &mut Tc, path: &Path) -> Result<(Log, Found), LogError> {
        let file = LogFile::open(path)?;
        let mut bytes = Vec::new();
        (&file).read_to_end(&mut bytes)?;
        if is_sessionless(&bytes) {
            tc.set_session(session_of(path).ok_or(NO_SESSION)?)?;
        }
        let whole = tc.file_back(&bytes).map_err(|(refusal, place)| LogError::Refused(refusal, place))? as usize;
        cut(path, &file, &bytes, whole)?;
        let found = Found { events: tc.log_length(), dropped: (bytes.len() - whole) as u64 };
        let log = Log::over(tc, LogFile { path: path.to_path_buf(), file: Mutex::new(Arc::new(file)) })?;
        log.keep(tc)?;
        Ok((log, found))
    }
}
