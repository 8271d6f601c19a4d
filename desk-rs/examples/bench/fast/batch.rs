//! A batch of regions through a chain's text, with a tally; all of them in bytes.

use std::hint::select_unpredictable;

use super::chain::{read_text, Chain};
use super::words::{require, Answer};
use super::{Room, Row, BLOCK_LIMIT};

/// Bytes of a region (start and end), of a row of answers and of a tally.
const REGION: usize = 16;
const ROW: usize = 40;
const TALLY: usize = 24;
/// Largest field of a tally.
const MOST: u64 = 9_223_372_036_854_775_807;
/// The refusals of a region.
const OUT_OF_RANGE: u64 = 5;
const BAD_TALLY: u64 = 10;
const NO_PAIR: u64 = 12;
const NOT_INSIDE: u64 = 13;

/// The blocks in columns. Past the last block stand the largest starts and ends, so
/// that each search goes over a whole column and the number of its steps is known.
pub struct Columns {
    starts: [u32; BLOCK_LIMIT],
    ends: [u32; BLOCK_LIMIT],
    /// From a target position to its partner on the chain's query strand, wrapping.
    partners: [u64; BLOCK_LIMIT],
    /// From a target position to the bases in blocks before it, wrapping.
    bases: [u64; BLOCK_LIMIT],
}

impl Columns {
    pub const fn new() -> Columns {
        Columns {
            starts: [0; BLOCK_LIMIT],
            ends: [0; BLOCK_LIMIT],
            partners: [0; BLOCK_LIMIT],
            bases: [0; BLOCK_LIMIT],
        }
    }

    /// The columns of an accepted chain, whose positions fit 32 bits.
    fn fill(&mut self, rows: &[Row]) {
        let mut bases = 0u64;
        for (at, row) in rows.iter().enumerate() {
            self.starts[at] = row.target as u32;
            self.ends[at] = (row.target + row.size) as u32;
            self.partners[at] = row.query.wrapping_sub(row.target);
            self.bases[at] = bases.wrapping_sub(row.target);
            bases += row.size;
        }
        self.starts[rows.len()..].fill(u32::MAX);
        self.ends[rows.len()..].fill(u32::MAX);
    }

    /// Whether a region inside the target has a pair, and where it has one its kept
    /// bases and the query region. There is no branch, as it would be guessed wrong.
    #[inline(always)]
    fn lift(&self, chain: &Chain, start: u64, end: u64) -> (bool, [u64; 3]) {
        let first = self.ends.partition_point(|past| *past <= start as u32);
        let behind = self.starts.partition_point(|block| *block < end as u32);
        let has_pair = first < behind;
        let (first, last) = (first % BLOCK_LIMIT, behind.wrapping_sub(1) % BLOCK_LIMIT);
        let from = start.max(u64::from(self.starts[first]));
        let to = end.min(u64::from(self.ends[last]));
        let kept_to = to.wrapping_add(self.bases[last]);
        let kept = kept_to.wrapping_sub(from.wrapping_add(self.bases[first]));
        let q_start = from.wrapping_add(self.partners[first]);
        let q_end = to.wrapping_add(self.partners[last]);
        let (q_start, q_end) = chain.forward(q_start, q_end);
        (has_pair, [kept, q_start, q_end])
    }
}

/// Asked, kept and dropped bases.
struct Tally {
    sums: [u64; 3],
    good: bool,
}

impl Tally {
    /// A tally cut short is a bad one.
    fn read(lent: &[u8]) -> Tally {
        let Some(front) = lent.first_chunk::<TALLY>() else {
            return Tally {
                sums: [0; 3],
                good: false,
            };
        };
        let sums @ [asked, kept, dropped] = numbers(front);
        let good = asked <= MOST && kept.checked_add(dropped) == Some(asked);
        Tally { sums, good }
    }

    fn write(&self, lent: &mut [u8]) {
        if let Some(front) = lent.first_chunk_mut::<TALLY>() {
            store(front, self.sums);
        }
    }

    /// The row of a region; the tally grows.
    #[inline(always)]
    fn step(&mut self, chain: &Chain, columns: &Columns, start: u64, end: u64) -> [u64; 5] {
        if start >= end || end > chain.t_size {
            return refused(NOT_INSIDE);
        }
        if !self.good {
            return refused(BAD_TALLY);
        }
        let length = end - start;
        let [asked, kept, dropped] = &mut self.sums;
        if length > MOST - *asked {
            return refused(OUT_OF_RANGE);
        }
        let (has_pair, [bases, q_start, q_end]) = columns.lift(chain, start, end);
        let pick = |lifted: u64, refused: u64| select_unpredictable(has_pair, lifted, refused);
        let bases = pick(bases, 0);
        let others = length - bases;
        *asked += length;
        *kept += bases;
        *dropped += others;
        let reason = pick(0, NO_PAIR);
        [
            reason,
            bases,
            pick(others, 0),
            pick(q_start, 0),
            pick(q_end, 0),
        ]
    }
}

fn refused(number: u64) -> [u64; 5] {
    [number, 0, 0, 0, 0]
}

/// Lifts each region through the chain of a text, into a row each; answers how many
/// they are. A refusal leaves tally and rows.
pub fn lift_batch(
    text: &[u8],
    regions: &[u8],
    tally: &mut [u8],
    out: &mut [u8],
    room: &mut Room,
) -> Answer<usize> {
    let (regions, cut) = regions.as_chunks::<REGION>();
    let (rows, _) = out.as_chunks_mut::<ROW>();
    require(cut.is_empty() && regions.len() <= rows.len(), 11, 0)?;
    let chain = read_text(text, &mut room.rows)?;
    room.columns.fill(&room.rows[..chain.block_count]);
    let mut sums = Tally::read(tally);
    for (region, row) in regions.iter().zip(rows) {
        let [start, end] = numbers(region);
        store(row, sums.step(&chain, &room.columns, start, end));
    }
    sums.write(tally);
    Ok(regions.len())
}

/// Numbers of 8 bytes each, the lowest first.
#[inline(always)]
fn numbers<const N: usize>(bytes: &[u8]) -> [u64; N] {
    let mut numbers = [0; N];
    for (number, bytes) in numbers.iter_mut().zip(bytes.as_chunks().0) {
        *number = u64::from_le_bytes(*bytes);
    }
    numbers
}

#[inline(always)]
fn store<const N: usize>(bytes: &mut [u8], numbers: [u64; N]) {
    for (place, number) in bytes.as_chunks_mut().0.iter_mut().zip(numbers) {
        *place = number.to_le_bytes();
    }
}
