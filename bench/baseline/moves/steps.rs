//! Moves in steps, as a transaction component makes them: each operation is asked and answered under the
//! lock, and carried to the component of the rows without it.

use crate::log::Log;
use crate::measure::Measure;
use crate::rows::{assert_sum_stays, first_rows, moved, Pairs, Row};
use std::collections::{HashMap, HashSet};
use std::sync::mpsc::{sync_channel, Receiver, SyncSender};
use std::sync::{Condvar, Mutex, MutexGuard};
use std::thread;

const EVENTS: usize = 2_000_000;

/// What is asked of a row.
#[derive(Clone, Copy)]
struct Operation {
    key: u64,
    /// The row that is written; nothing where the row is read.
    row: Option<Row>,
}

impl Operation {
    fn read(key: u64) -> Operation {
        Operation { key, row: None }
    }

    fn update(key: u64, row: Row) -> Operation {
        Operation { key, row: Some(row) }
    }
}

/// The rows of a component.
struct Rows(HashMap<u64, Row>);

impl Rows {
    /// Says the row of before.
    fn perform(&mut self, operation: &Operation) -> Row {
        let row = self.0.get_mut(&operation.key).expect("all records are there");
        let before = *row;
        if let Some(after) = operation.row {
            *row = after;
        }
        before
    }
}

struct Desk {
    held: HashSet<u64>,
    log: Log,
    txn: u64,
}

/// The lock table and the log, and what tells of records that are free again.
struct Shared {
    desk: Mutex<Desk>,
    freed: Condvar,
}

impl Shared {
    fn new(measure: Measure) -> Shared {
        let desk = Desk { held: HashSet::new(), log: measure.log(EVENTS), txn: 0 };
        Shared { desk: Mutex::new(desk), freed: Condvar::new() }
    }

    /// Asks an operation under the lock, carries it without the lock, and takes the answer in.
    fn step<'a>(
        &'a self,
        mut asking: MutexGuard<'a, Desk>,
        txn: u64,
        operation: Operation,
        carry: &impl Fn(Operation) -> Row,
    ) -> (MutexGuard<'a, Desk>, Row) {
        let number = asking.log.ask(txn, operation.key, operation.row);
        drop(asking);
        let row = carry(operation);
        let mut answering = self.desk.lock().unwrap();
        answering.log.answer(txn, number, operation.key, row);
        (answering, row)
    }

    /// Moves 1 from one record to another: five takings of the lock.
    fn move_one(&self, from: u64, to: u64, carry: &impl Fn(Operation) -> Row) {
        let desk = self.desk.lock().unwrap();
        let is_held = |desk: &mut Desk| desk.held.contains(&from) || desk.held.contains(&to);
        let mut desk = self.freed.wait_while(desk, is_held).unwrap();
        desk.held.extend([from, to]);
        desk.txn += 1;
        let txn = desk.txn;
        desk.log.admit(txn, from);
        let (desk, first) = self.step(desk, txn, Operation::read(from), carry);
        let (desk, second) = self.step(desk, txn, Operation::read(to), carry);
        let after = moved(&first, &second);
        let (desk, _) = self.step(desk, txn, Operation::update(from, after.0), carry);
        let (mut desk, _) = self.step(desk, txn, Operation::update(to, after.1), carry);
        desk.log.end(txn);
        desk.held.remove(&from);
        desk.held.remove(&to);
        drop(desk);
        self.freed.notify_all();
    }
}

/// The component is a lock's.
pub fn locked(workers: usize, measure: Measure) -> f64 {
    let shared = Shared::new(measure);
    let rows = Mutex::new(Rows(first_rows()));
    let rate = measure.rate(workers, |worker, until| {
        let (mut pairs, mut made) = (Pairs::of_worker(worker), 0);
        let carry = |operation: Operation| rows.lock().unwrap().perform(&operation);
        while until.goes_on(made) {
            let (from, to) = pairs.next();
            shared.move_one(from, to, &carry);
            made += 1;
        }
        made
    });
    assert_sum_stays(rows.into_inner().unwrap().0.into_values());
    rate
}

/// An operation, and the worker that waits for its answer.
struct Parcel {
    worker: usize,
    operation: Operation,
}

/// Performs what comes into the inbox until nobody can send any more.
fn serve(inbox: Receiver<Parcel>, notes: Vec<SyncSender<Row>>) -> Rows {
    let mut rows = Rows(first_rows());
    for parcel in inbox {
        let row = rows.perform(&parcel.operation);
        notes[parcel.worker].send(row).expect("who sent it waits");
    }
    rows
}

/// The component has a thread of its own: a bounded queue to it, and one back to each worker.
pub fn rings(workers: usize, measure: Measure) -> f64 {
    let shared = Shared::new(measure);
    let (send, inbox) = sync_channel(workers);
    let (notes, replies): (Vec<_>, Vec<_>) = (0..workers).map(|_| sync_channel(1)).unzip();
    let replies: Vec<_> = replies.into_iter().map(Mutex::new).collect();
    let server = thread::spawn(move || serve(inbox, notes));
    let rate = measure.rate(workers, |worker, until| {
        let (mut pairs, mut made) = (Pairs::of_worker(worker), 0);
        let (send, replies) = (send.clone(), replies[worker].lock().unwrap());
        let carry = |operation| {
            send.send(Parcel { worker, operation }).expect("the component serves");
            replies.recv().expect("the component answers")
        };
        while until.goes_on(made) {
            let (from, to) = pairs.next();
            shared.move_one(from, to, &carry);
            made += 1;
        }
        made
    });
    drop(send);
    assert_sum_stays(server.join().expect("the component ends").0.into_values());
    rate
}
