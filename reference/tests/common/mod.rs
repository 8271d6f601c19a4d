//! What several tests share: chain A, short forms of answers, and a generator.
#![allow(dead_code)]

use reference::chain::{self, Chain};
use reference::ledger::Answer;
use reference::rows::Row;

/// Chain A of the bench samples.
pub const CHAIN_A: &[u8] = b"chain 100 tA 100 + 10 40 qB 80 - 5 33 7\n10 3 0\n8 0 1\n9\n";

/// Chain A turned.
pub const CHAIN_A_TURNED: &[u8] = b"chain 100 qB 80 + 47 75 tA 100 - 60 90 7\n9 1 0\n8 0 3\n10\n";

/// Chain A as a PSL line.
pub const PSL_A: &[u8] =
    b"27 0 0 0 1 1 1 3 - qB 80 47 75 tA 100 10 40 3 10,8,9, 5,15,24, 10,23,31,";

/// The BED line of source document 000.
pub const BED_000: &[u8] = b"chr22 1000 5000 cloneA 960 + 1000 5000 0 2 567,488, 0,3512";

/// The BED line of source document 001, with touching blocks.
pub const BED_001: &[u8] = b"chrX 156881 157496 Hs.530320 300 + 156881 157496 0 2 231,384, 0,231,";

/// Room that is enough for every record and text.
pub const ROOM: usize = 65_536;

pub fn chain_a() -> (Chain, Vec<Row>) {
    chain::read(CHAIN_A, ROOM).unwrap()
}

/// The number and place of a refusal.
pub fn refusal<T: std::fmt::Debug>(answer: Answer<T>) -> (u8, usize) {
    let refusal = answer.unwrap_err();
    (refusal.reason.number(), refusal.place)
}

/// The number of a refusal at place 0.
pub fn number<T: std::fmt::Debug>(answer: Answer<T>) -> u8 {
    let (number, place) = refusal(answer);
    assert_eq!(place, 0);
    number
}

/// `text` with its one `from` replaced by `to`.
pub fn with(text: &[u8], from: &str, to: &str) -> Vec<u8> {
    let text = std::str::from_utf8(text).unwrap();
    assert_eq!(text.matches(from).count(), 1, "{from} in {text}");
    text.replace(from, to).into_bytes()
}

/// A small deterministic generator (xorshift).
pub struct Dice(u64);

impl Dice {
    pub fn new(seed: u64) -> Dice {
        Dice(seed | 1)
    }

    pub fn next(&mut self) -> u64 {
        self.0 ^= self.0 << 13;
        self.0 ^= self.0 >> 7;
        self.0 ^= self.0 << 17;
        self.0
    }

    /// A number from `least` to `most`.
    pub fn between(&mut self, least: u64, most: u64) -> u64 {
        least + (self.next() >> 8) % (most - least + 1)
    }

    pub fn chance(&mut self, one_in: u64) -> bool {
        self.between(1, one_in) == 1
    }

    /// A name of 1 to 12 bytes, now and then of 64.
    pub fn name(&mut self) -> Vec<u8> {
        let length = if self.chance(20) {
            64
        } else {
            self.between(1, 12)
        };
        (0..length).map(|_| self.between(33, 126) as u8).collect()
    }

    /// Blocks as (size, dt, dq); the gaps of the last are 0.
    pub fn blocks(&mut self) -> Vec<(u64, u64, u64)> {
        let count = if self.chance(40) {
            512
        } else {
            self.between(1, 6)
        };
        (1..=count)
            .map(|at| match at == count {
                true => (self.between(1, 9), 0, 0),
                false => (self.between(1, 9), self.gap(), self.gap()),
            })
            .collect()
    }

    fn gap(&mut self) -> u64 {
        if self.chance(3) {
            0
        } else {
            self.between(0, 5)
        }
    }
}

/// The rows of blocks, from these starts on.
pub fn rows_of(blocks: &[(u64, u64, u64)], mut target: u64, mut query: u64) -> Vec<Row> {
    let mut rows = Vec::new();
    for (size, dt, dq) in blocks {
        rows.push(Row {
            target,
            query,
            size: *size,
        });
        target += size + dt;
        query += size + dq;
    }
    rows
}
