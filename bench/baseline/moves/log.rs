//! A log of events of 96 bytes, as many as `procd`'s log prints for an event.

use crate::rows::Row;

#[repr(u64)]
#[derive(Clone, Copy)]
enum Kind {
    Admit,
    Ask,
    Answer,
    End,
}

#[derive(Clone, Copy)]
#[expect(dead_code, reason = "the log is written and never read")]
struct Event {
    kind: Kind,
    txn: u64,
    number: u64,
    key: u64,
    row: Row,
}

const _: () = assert!(size_of::<Event>() == 96);

const NOTHING: Row = [0; 64];

/// Events, and the last number that was given to an operation.
pub struct Log {
    events: Vec<Event>,
    most: usize,
    number: u64,
}

impl Log {
    /// A log that keeps every event, in memory that is new.
    pub fn whole() -> Log {
        Log { events: Vec::new(), most: usize::MAX, number: 0 }
    }

    /// A log that is emptied where it has so many events, so that its memory is used again.
    pub fn emptied_at(most: usize) -> Log {
        Log { events: Vec::with_capacity(most), most, number: 0 }
    }

    fn push(&mut self, kind: Kind, txn: u64, number: u64, key: u64, row: Row) {
        if self.events.len() >= self.most {
            self.events.clear();
        }
        self.events.push(Event { kind, txn, number, key, row });
    }

    pub fn admit(&mut self, txn: u64, key: u64) {
        self.push(Kind::Admit, txn, 0, key, NOTHING);
    }

    /// An operation on a record, with the row that it writes, if it writes one. Says its number.
    pub fn ask(&mut self, txn: u64, key: u64, row: Option<Row>) -> u64 {
        self.number += 1;
        self.push(Kind::Ask, txn, self.number, key, row.unwrap_or(NOTHING));
        self.number
    }

    pub fn answer(&mut self, txn: u64, number: u64, key: u64, row: Row) {
        self.push(Kind::Answer, txn, number, key, row);
    }

    pub fn end(&mut self, txn: u64) {
        self.push(Kind::End, txn, 0, 0, NOTHING);
    }

    /// All ten events of a move, with the rows before it and behind it.
    pub fn record(&mut self, txn: u64, keys: (u64, u64), before: (Row, Row), after: (Row, Row)) {
        self.admit(txn, keys.0);
        for (key, written, said) in [
            (keys.0, None, before.0),
            (keys.1, None, before.1),
            (keys.0, Some(after.0), before.0),
            (keys.1, Some(after.1), before.1),
        ] {
            let number = self.ask(txn, key, written);
            self.answer(txn, number, key, said);
        }
        self.end(txn);
    }
}
