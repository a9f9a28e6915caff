//! sqlite MOVES: how often SQLite, its rows in memory, moves an amount between two of a thousand records, by
//! one thread with prepared statements: two reads and two updates in a transaction. It keeps no log.
//! sqlite MOVES FILE THREADS: the same, once, in a new file, by threads with a connection each; what it commits is
//! synced (`journal_mode=WAL`, `synchronous=FULL`). Build with `rustc --edition 2024 -O -l sqlite3`.

use std::ffi::{CStr, CString, c_char, c_int, c_void};
use std::ptr;
use std::sync::Barrier;
use std::thread;
use std::time::Instant;

const RECORDS: i64 = 1000;

const FIRST: i64 = 1_000_000;

const TRIES: u32 = 3;

/// How long a connection waits for the others, in milliseconds, before it is told that they are at it.
const PATIENCE: c_int = 60_000;

const OK: c_int = 0;
const BUSY: c_int = 5;
const ROW: c_int = 100;
const DONE: c_int = 101;

#[repr(C)]
struct Connection {
    _opaque: [u8; 0],
}

#[repr(C)]
struct Prepared {
    _opaque: [u8; 0],
}

unsafe extern "C" {
    fn sqlite3_open(name: *const c_char, out: *mut *mut Connection) -> c_int;
    fn sqlite3_close(database: *mut Connection) -> c_int;
    fn sqlite3_busy_timeout(database: *mut Connection, milliseconds: c_int) -> c_int;
    fn sqlite3_prepare_v2(
        database: *mut Connection,
        text: *const c_char,
        bytes: c_int,
        out: *mut *mut Prepared,
        tail: *mut *const c_char,
    ) -> c_int;
    fn sqlite3_bind_int64(statement: *mut Prepared, place: c_int, number: i64) -> c_int;
    fn sqlite3_bind_blob(
        statement: *mut Prepared,
        place: c_int,
        bytes: *const c_void,
        count: c_int,
        destructor: *const c_void,
    ) -> c_int;
    fn sqlite3_step(statement: *mut Prepared) -> c_int;
    fn sqlite3_column_blob(statement: *mut Prepared, column: c_int) -> *const c_void;
    fn sqlite3_reset(statement: *mut Prepared) -> c_int;
    fn sqlite3_finalize(statement: *mut Prepared) -> c_int;
}

type Row = [u8; 64];

struct Database(*mut Connection);

impl Database {
    fn in_memory() -> Database {
        Database::open(c":memory:")
    }

    /// Commits are on the disk before they are told.
    fn in_file(name: &CStr) -> Database {
        let database = Database::open(name);
        assert_eq!(unsafe { sqlite3_busy_timeout(database.0, PATIENCE) }, OK);
        database.prepare(c"PRAGMA journal_mode=WAL").answer();
        database.prepare(c"PRAGMA synchronous=FULL").run();
        database
    }

    fn open(name: &CStr) -> Database {
        let mut database = ptr::null_mut();
        assert_eq!(unsafe { sqlite3_open(name.as_ptr(), &mut database) }, OK);
        Database(database)
    }

    fn prepare(&self, text: &CStr) -> Statement {
        let mut statement = ptr::null_mut();
        let prepared = unsafe {
            sqlite3_prepare_v2(self.0, text.as_ptr(), -1, &mut statement, ptr::null_mut())
        };
        assert_eq!(prepared, OK, "{text:?}");
        Statement(statement)
    }
}

impl Drop for Database {
    fn drop(&mut self) {
        unsafe { sqlite3_close(self.0) };
    }
}

struct Statement(*mut Prepared);

impl Statement {
    fn bind_key(&self, place: c_int, key: i64) {
        assert_eq!(unsafe { sqlite3_bind_int64(self.0, place, key) }, OK);
    }

    /// The row has to live until the statement has run.
    fn bind_row(&self, place: c_int, row: &Row) {
        let bound = unsafe { sqlite3_bind_blob(self.0, place, row.as_ptr().cast(), 64, ptr::null()) };
        assert_eq!(bound, OK);
    }

    /// Runs to its end, again where others were at it for too long, and is ready to be run again.
    fn run(&self) {
        let mut ended = BUSY;
        while ended == BUSY {
            ended = unsafe { sqlite3_step(self.0) };
            unsafe { sqlite3_reset(self.0) };
        }
        assert_eq!(ended, DONE);
    }

    /// Runs, with an answer that nobody reads.
    fn answer(&self) {
        assert_eq!(unsafe { sqlite3_step(self.0) }, ROW);
        unsafe { sqlite3_reset(self.0) };
    }

    /// The row in the first column of the only line.
    fn row(&self) -> Row {
        assert_eq!(unsafe { sqlite3_step(self.0) }, ROW);
        let row = unsafe { *sqlite3_column_blob(self.0, 0).cast() };
        unsafe { sqlite3_reset(self.0) };
        row
    }
}

impl Drop for Statement {
    fn drop(&mut self) {
        unsafe { sqlite3_finalize(self.0) };
    }
}

fn amount(row: &Row) -> i64 {
    let (first, _) = row.split_first_chunk().expect("a row has 64 bytes");
    i64::from_le_bytes(*first)
}

fn with_amount(mut row: Row, amount: i64) -> Row {
    row[..8].copy_from_slice(&amount.to_le_bytes());
    row
}

fn draw(seed: &mut u64) -> i64 {
    *seed ^= *seed << 13;
    *seed ^= *seed >> 7;
    *seed ^= *seed << 17;
    (*seed % RECORDS as u64) as i64
}

struct Moves {
    begin: Statement,
    read: Statement,
    update: Statement,
    commit: Statement,
}

impl Moves {
    fn new(database: &Database) -> Moves {
        Moves {
            begin: database.prepare(c"BEGIN IMMEDIATE"),
            read: database.prepare(c"SELECT value FROM records WHERE key = ?1"),
            update: database.prepare(c"UPDATE records SET value = ?2 WHERE key = ?1"),
            commit: database.prepare(c"COMMIT"),
        }
    }

    fn read(&self, key: i64) -> Row {
        self.read.bind_key(1, key);
        self.read.row()
    }

    fn update(&self, key: i64, row: &Row) {
        self.update.bind_key(1, key);
        self.update.bind_row(2, row);
        self.update.run();
    }

    fn move_one(&self, from: i64, to: i64) {
        self.begin.run();
        let (first, second) = (self.read(from), self.read(to));
        self.update(from, &with_amount(first, amount(&first) - 1));
        self.update(to, &with_amount(second, amount(&second) + 1));
        self.commit.run();
    }
}

fn fill(database: &Database) {
    database.prepare(c"CREATE TABLE records (key INTEGER PRIMARY KEY, value BLOB NOT NULL)").run();
    let insert = database.prepare(c"INSERT INTO records VALUES (?1, ?2)");
    database.prepare(c"BEGIN").run();
    for key in 0..RECORDS {
        let row = with_amount([0; 64], FIRST);
        insert.bind_key(1, key);
        insert.bind_row(2, &row);
        insert.run();
    }
    database.prepare(c"COMMIT").run();
}

fn move_all(moves: &Moves, count: u64, mut seed: u64) {
    for _ in 0..count {
        let from = draw(&mut seed);
        let mut to = draw(&mut seed);
        while to == from {
            to = draw(&mut seed);
        }
        moves.move_one(from, to);
    }
}

fn assert_sum(moves: &Moves) {
    let sum: i64 = (0..RECORDS).map(|key| amount(&moves.read(key))).sum();
    assert_eq!(sum, RECORDS * FIRST);
}

const SEED: u64 = 0x9e37_79b9_7f4a_7c15;

/// Moves a second, in memory.
fn rate(count: u64) -> f64 {
    let database = Database::in_memory();
    fill(&database);
    let moves = Moves::new(&database);
    let begin = Instant::now();
    move_all(&moves, count, SEED);
    let rate = count as f64 / begin.elapsed().as_secs_f64();
    assert_sum(&moves);
    rate
}

/// Moves a second, in a file, by so many threads at once.
fn rate_in_file(count: u64, name: &CStr, threads: u64) -> f64 {
    let database = Database::in_file(name);
    fill(&database);
    let each = count / threads;
    let line = Barrier::new(threads as usize + 1);
    let begin = thread::scope(|scope| {
        for thread in 1..=threads {
            let line = &line;
            scope.spawn(move || {
                let own = Database::in_file(name);
                let moves = Moves::new(&own);
                line.wait();
                move_all(&moves, each, SEED.wrapping_mul(2 * thread + 1));
            });
        }
        line.wait();
        Instant::now()
    });
    let rate = (each * threads) as f64 / begin.elapsed().as_secs_f64();
    assert_sum(&Moves::new(&database));
    rate
}

fn main() {
    let words: Vec<String> = std::env::args().collect();
    let number = |place: usize| words.get(place).and_then(|word| word.parse::<u64>().ok());
    match (words.len(), number(1), number(3)) {
        (2, Some(count), None) => {
            let best = (0..TRIES).map(|_| rate(count)).fold(0.0, f64::max);
            println!("{:<8} {:>8} {:>14.0}  (best of {TRIES})", "sqlite", 1, best);
        }
        (4, Some(count), Some(threads @ 1..)) => {
            let name = CString::new(words[2].as_str()).expect("a word has no zero");
            let rate = rate_in_file(count, &name, threads);
            println!("{:<8} {:>8} {:>14.0}", "sqlite", threads, rate);
        }
        _ => {
            eprintln!("usage: sqlite MOVES [FILE THREADS]");
            std::process::exit(2);
        }
    }
}
