//! A thousand records of 64 bytes, each with an amount in its first eight.

use std::collections::HashMap;

pub type Row = [u8; 64];

pub const RECORDS: u64 = 1000;

const FIRST: u64 = 1_000_000;

pub fn amount(row: &Row) -> u64 {
    let (first, _) = row.split_first_chunk().expect("a row has 64 bytes");
    u64::from_le_bytes(*first)
}

pub fn with_amount(mut row: Row, amount: u64) -> Row {
    row[..8].copy_from_slice(&amount.to_le_bytes());
    row
}

/// The two rows once 1 has moved from the first to the second.
pub fn moved(from: &Row, to: &Row) -> (Row, Row) {
    (with_amount(*from, amount(from).wrapping_sub(1)), with_amount(*to, amount(to).wrapping_add(1)))
}

/// Each record with the amount that it begins with.
pub fn first_rows() -> HashMap<u64, Row> {
    (0..RECORDS).map(|key| (key, with_amount([0; 64], FIRST))).collect()
}

/// Sees that nothing was lost or made.
pub fn assert_sum_stays(rows: impl Iterator<Item = Row>) {
    let sum = rows.fold(0, |sum: u64, row| sum.wrapping_add(amount(&row)));
    assert_eq!(sum, RECORDS * FIRST);
}

/// Pairs of different keys, drawn by a xorshift (Marsaglia, 2003) of each worker's own.
pub struct Pairs(u64);

impl Pairs {
    pub fn of_worker(worker: usize) -> Pairs {
        Pairs(0x9e37_79b9_7f4a_7c15 ^ (worker as u64 + 1))
    }

    fn draw(&mut self) -> u64 {
        self.0 ^= self.0 << 13;
        self.0 ^= self.0 >> 7;
        self.0 ^= self.0 << 17;
        self.0 % RECORDS
    }

    pub fn next(&mut self) -> (u64, u64) {
        let from = self.draw();
        loop {
            let to = self.draw();
            if to != from {
                return (from, to);
            }
        }
    }
}
