//! What goes in and out: records, operations, wires, replies, news and events.

use super::Refusal;

pub type Value = [u8; 64];

#[derive(Clone, Copy, Debug, PartialEq, Eq, Hash, PartialOrd, Ord)]
pub struct Record {
    pub dc: u16,
    pub table: u16,
    pub key: u64,
}

#[derive(Clone, Copy, Debug)]
pub enum Op {
    Read(Record),
    Insert(Record, Value),
    Update(Record, Value),
    Delete(Record),
}

impl Op {
    pub fn record(&self) -> Record {
        match *self {
            Op::Read(record) | Op::Insert(record, _) | Op::Update(record, _) | Op::Delete(record) => record,
        }
    }

    pub(super) fn of(op: u32, record: Record, value: Value) -> Op {
        match op {
            1 => Op::Read(record),
            2 => Op::Insert(record, value),
            3 => Op::Update(record, value),
            _ => Op::Delete(record),
        }
    }
}

#[derive(Clone, Copy, Debug)]
pub struct Wire {
    pub number: u64,
    pub low_water: u64,
    /// Another incarnation of the data component doesn't answer it.
    pub incarnation: u64,
    /// It was answered before, and may be lost.
    pub redo: bool,
    pub op: Op,
    /// Whose number it is, of the transaction components over the same storage ([`Tc::session`]).
    pub session: u64,
    /// It undoes a write: it is to be performed where the data component is full, too.
    pub undoes: bool,
}

#[derive(Clone, Copy, Debug)]
pub enum Said {
    Value(Value),
    Absent,
    Done,
    DoneWas(Value),
    Duplicate,
    Missing,
    NoRoom,
    Old,
}

impl Said {
    pub(super) fn of(kind: u32, value: Value) -> Said {
        match kind {
            1 => Said::Value(value),
            2 => Said::Absent,
            3 => Said::Done,
            4 => Said::DoneWas(value),
            5 => Said::Duplicate,
            6 => Said::Missing,
            7 => Said::NoRoom,
            _ => Said::Old,
        }
    }
}

/// What an operator watches ([`super::Tc::count`]). What isn't `now` counts from [`super::Tc::new`] on.
#[derive(Clone, Copy, Debug, Default, PartialEq, Eq)]
pub struct Counts {
    pub admitted: u64,
    pub busy: u64,
    pub committed: u64,
    pub aborted: u64,
    pub no_room: u64,
    /// Now: transactions.
    pub open: u64,
    /// Now: those of them that wait for an answer.
    pub waiting: u64,
    /// Requests made.
    pub wires: u64,
    /// Their wires made again.
    pub resent: u64,
    pub redone: u64,
    /// News taken in.
    pub restarts: u64,
    /// Replies that weren't taken in.
    pub refused: u64,
    /// Now, as the two after it.
    pub last_number: u64,
    pub low_water: u64,
    pub events: u64,
}

/// What is said to a wire, by an incarnation of its data component.
#[derive(Clone, Copy, Debug)]
pub struct Reply {
    pub number: u64,
    pub incarnation: u64,
    pub said: Said,
}

/// What a data component tells of its restart.
#[derive(Clone, Copy, Debug)]
pub struct News {
    pub incarnation: u64,
    pub mark: u64,
}

/// What is kept of a data component with the log: that it is up in an incarnation, or has restarted.
#[derive(Clone, Copy, Debug)]
pub enum Note {
    Up(u64),
    Restarted(News),
}

#[derive(Clone, Copy, Debug)]
pub enum Key {
    Fixed(u64),
    Argument(u8),
}

#[derive(Clone, Copy, Debug)]
pub struct Slot {
    pub write: bool,
    pub dc: u16,
    pub table: u16,
    pub key: Key,
}

#[derive(Debug)]
pub enum Next {
    Request(Wire),
    Undoing,
    Over,
    Stuck(u64),
    Waits(u64),
    Running,
    /// A request is held back: its data component is down. Once that is up, [`Tc::resend`].
    Down(Record),
}

#[derive(Clone, Copy, Debug, PartialEq, Eq)]
pub enum Outcome {
    Committed,
    Aborted(u64),
    NoRoom,
}

impl Outcome {
    pub(super) fn of(kind: u32, value: u64) -> Outcome {
        match kind {
            1 => Outcome::Committed,
            2 => Outcome::Aborted(value),
            _ => Outcome::NoRoom,
        }
    }
}

/// An open transaction, with the place of its admission in the log, from 0.
#[derive(Clone, Copy, Debug)]
pub struct Open {
    pub txn: u64,
    pub procedure: u64,
    pub place: u64,
    /// The number and the operation that it waits for, if it does.
    pub waits: Option<(u64, Op)>,
    /// That request is held; else [`Tc::retake`] takes it up.
    pub held: bool,
    /// It is in doubt, since that number was given up, or stuck.
    pub stranded: bool,
}

/// A lock that a transaction holds: for writing too, or for reading alone.
#[derive(Clone, Copy, Debug, PartialEq, Eq)]
pub struct Lock {
    pub txn: u64,
    pub record: Record,
    pub write: bool,
}

/// How a transaction ended, and the place of its end in the log, from 0.
#[derive(Clone, Copy, Debug, PartialEq, Eq)]
pub struct Receipt {
    pub outcome: Outcome,
    pub place: u64,
}

/// Why a call wasn't admitted.
#[derive(Clone, Copy, Debug, PartialEq, Eq)]
pub enum NotAdmitted {
    /// The least record in the way, and its least holder.
    Busy {
        record: Record,
        holder: u64,
    },
    Refused(Refusal),
}

/// A procedure of an object file that is refused: why, its name, and the slot.
pub type Unloaded = (Refusal, String, u64);

/// An event of the log.
#[derive(Clone, Debug)]
pub enum Event {
    Admit {
        txn: u64,
        procedure: u64,
        args: Vec<u64>,
    },
    Ask {
        txn: u64,
        number: u64,
        op: Op,
    },
    Answer {
        txn: u64,
        number: u64,
        said: Said,
    },
    Undo {
        txn: u64,
        number: u64,
        op: Op,
    },
    End {
        txn: u64,
        outcome: Outcome,
    },
    /// The oldest of a log that began anew: the last transaction and number before it.
    Checkpoint {
        admitted: u64,
        given: u64,
    },
}

impl Event {
    /// What the 96 bytes of an event say, if they are one's.
    pub fn event_of(bytes: &[u8; 96]) -> Option<Event> {
        let number_at = |at: usize| u64::from_le_bytes(bytes[at..at + 8].try_into().expect("8 bytes"));
        let short_at = |at: usize| u16::from_le_bytes([bytes[at], bytes[at + 1]]);
        let (sub, txn, word) = (u32::from(bytes[1]), number_at(8), number_at(16));
        let value: Value = bytes[32..].try_into().expect("64 bytes");
        let op = || Op::of(sub, Record { dc: short_at(2), table: short_at(4), key: number_at(24) }, value);
        Some(match bytes[0] {
            1 => Event::Admit {
                txn,
                procedure: word,
                args: (0..usize::from(bytes[1]).min(8)).map(|i| number_at(32 + 8 * i)).collect(),
            },
            2 => Event::Ask { txn, number: word, op: op() },
            3 => Event::Answer { txn, number: word, said: Said::of(sub, value) },
            4 => Event::Undo { txn, number: word, op: op() },
            5 => Event::End { txn, outcome: Outcome::of(sub, word) },
            6 => Event::Checkpoint { admitted: txn, given: word },
            _ => return None,
        })
    }
}

/// Where a run of a program stands.
#[derive(Clone, Copy, Debug)]
pub enum At {
    End(u64),
    Operation(Op),
}

/// Where it stands, and how many instructions it has executed.
#[derive(Clone, Copy, Debug)]
pub struct Stop {
    pub at: At,
    pub executed: u64,
}
