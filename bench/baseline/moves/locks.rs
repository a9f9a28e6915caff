//! Moves by workers that share rows, a lock table and a log.

use crate::log::Log;
use crate::measure::Measure;
use crate::rows::{assert_sum_stays, first_rows, moved, Pairs, Row};
use std::collections::{HashMap, HashSet};
use std::sync::{Condvar, Mutex};
use std::time::Duration;

const EVENTS: usize = 2_000_000;

const EVENTS_OF_A_WORKER: usize = 500_000;

struct State {
    rows: HashMap<u64, Row>,
    held: HashSet<u64>,
    log: Log,
    txn: u64,
}

impl State {
    fn new(measure: Measure, rows: HashMap<u64, Row>) -> State {
        State { rows, held: HashSet::new(), log: measure.log(EVENTS), txn: 0 }
    }

    /// Claims both records for a transaction, and says its number; nothing where one of them is held.
    fn claim(&mut self, from: u64, to: u64) -> Option<u64> {
        if self.held.contains(&from) || self.held.contains(&to) {
            return None;
        }
        self.held.extend([from, to]);
        self.txn += 1;
        Some(self.txn)
    }

    fn release(&mut self, from: u64, to: u64) {
        self.held.remove(&from);
        self.held.remove(&to);
    }
}

/// All of a move under one taking of one lock.
pub fn coarse(workers: usize, measure: Measure) -> f64 {
    let state = Mutex::new(State::new(measure, first_rows()));
    let rate = measure.rate(workers, |worker, until| {
        let (mut pairs, mut made) = (Pairs::of_worker(worker), 0);
        while until.goes_on(made) {
            let (from, to) = pairs.next();
            let mut state = state.lock().unwrap();
            let txn = state.claim(from, to).expect("nobody holds a record while the lock is free");
            let before = (state.rows[&from], state.rows[&to]);
            let after = moved(&before.0, &before.1);
            state.rows.insert(from, after.0);
            state.rows.insert(to, after.1);
            state.log.record(txn, (from, to), before, after);
            state.release(from, to);
            made += 1;
        }
        made
    });
    assert_sum_stays(state.into_inner().unwrap().rows.into_values());
    rate
}

fn rows_with_locks() -> HashMap<u64, Mutex<Row>> {
    first_rows().into_iter().map(|(key, row)| (key, Mutex::new(row))).collect()
}

fn assert_sum_of_locked_stays(rows: HashMap<u64, Mutex<Row>>) {
    assert_sum_stays(rows.into_values().map(|row| row.into_inner().unwrap()));
}

/// The lock is taken twice, to claim the records and to log and release, and rows have locks of their own.
pub fn claims(workers: usize, measure: Measure) -> f64 {
    let rows = rows_with_locks();
    let state = Mutex::new(State::new(measure, HashMap::new()));
    let freed = Condvar::new();
    let rate = measure.rate(workers, |worker, until| {
        let (mut pairs, mut made) = (Pairs::of_worker(worker), 0);
        while until.goes_on(made) {
            let (from, to) = pairs.next();
            let mut claiming = state.lock().unwrap();
            let txn = loop {
                match claiming.claim(from, to) {
                    Some(txn) => break txn,
                    None => claiming = freed.wait_timeout(claiming, Duration::from_millis(1)).unwrap().0,
                }
            };
            drop(claiming);
            let before = (*rows[&from].lock().unwrap(), *rows[&to].lock().unwrap());
            let after = moved(&before.0, &before.1);
            *rows[&from].lock().unwrap() = after.0;
            *rows[&to].lock().unwrap() = after.1;
            let mut logging = state.lock().unwrap();
            logging.log.record(txn, (from, to), before, after);
            logging.release(from, to);
            drop(logging);
            if workers > 1 {
                freed.notify_all();
            }
            made += 1;
        }
        made
    });
    assert_sum_of_locked_stays(rows);
    rate
}

/// No shared state: a log for each worker, and the locks of the two rows, the lesser key's first.
pub fn fine(workers: usize, measure: Measure) -> f64 {
    let rows = rows_with_locks();
    let rate = measure.rate(workers, |worker, until| {
        let (mut pairs, mut made) = (Pairs::of_worker(worker), 0);
        let mut log = measure.log(EVENTS_OF_A_WORKER);
        while until.goes_on(made) {
            let (from, to) = pairs.next();
            let mut low = rows[&from.min(to)].lock().unwrap();
            let mut high = rows[&from.max(to)].lock().unwrap();
            let (first, second) = if from < to { (&mut *low, &mut *high) } else { (&mut *high, &mut *low) };
            let before = (*first, *second);
            let after = moved(first, second);
            (*first, *second) = after;
            log.record(made, (from, to), before, after);
            made += 1;
        }
        made
    });
    assert_sum_of_locked_stays(rows);
    rate
}
