//! Strand conversion, pairs, lifting, turning, the tally and batches of regions.

use crate::chain::{self, Chain};
use crate::ledger::{require, Answer, Reason, Refusal, Strand, TALLY_LIMIT};
use crate::rows::{self, Row};

/// Start and end on the other strand: size − end and size − start. A number over
/// the coordinate limit is 5, then 7 unless start < end ≤ size.
pub fn convert(size: u64, start: u64, end: u64) -> Answer<(u64, u64)> {
    let in_range = [size, start, end].into_iter().all(rows::coordinate);
    require(in_range, Reason::OutOfRange, 0)?;
    require(start < end && end <= size, Reason::BadSpan, 0)?;
    Ok((size - end, size - start))
}

/// One target base and one query base, both counted from the forward strand.
#[derive(Clone, Copy, Debug, PartialEq, Eq, PartialOrd, Ord)]
pub struct Pair {
    pub target: u64,
    pub query: u64,
}

/// The pairs of an accepted chain, listed one by one; of any other record, 9.
pub fn pairs<'r>(chain: &Chain, table: &'r [Row]) -> Answer<impl Iterator<Item = Pair> + 'r> {
    chain::check_record(chain, table)?;
    let rows = rows::used(table, chain.block_count)?;
    let (strand, q_size) = (chain.q_strand, chain.q_size);
    let forward = move |base: u64| match strand {
        Strand::Minus => q_size - 1 - base,
        _ => base,
    };
    Ok(rows.iter().flat_map(move |row| {
        (0..row.size).map(move |step| Pair {
            target: row.target + step,
            query: forward(row.query + step),
        })
    }))
}

/// A position's partner and the drift, partner minus position.
#[derive(Clone, Copy, Debug, PartialEq, Eq)]
pub struct LiftedPosition {
    pub partner: u64,
    pub drift: i128,
}

/// Lifts a target position through a chain: 9, then 13, then 12.
pub fn lift_position(chain: &Chain, table: &[Row], position: u64) -> Answer<LiftedPosition> {
    let mut pairs = pairs(chain, table)?;
    require(position < chain.t_size, Reason::NotInside, 0)?;
    let pair = pairs
        .find(|pair| pair.target == position)
        .ok_or(Refusal::new(Reason::NoPair, 0))?;
    Ok(LiftedPosition {
        partner: pair.query,
        drift: i128::from(pair.query) - i128::from(position),
    })
}

/// A region's bases in a pair and in none, and the smallest query region that
/// holds all partners, on the forward strand.
#[derive(Clone, Copy, Debug, PartialEq, Eq)]
pub struct LiftedRegion {
    pub kept: u64,
    pub dropped: u64,
    pub start: u64,
    pub end: u64,
}

/// Lifts a target region through a chain: 9, then 13, then 12.
pub fn lift_region(chain: &Chain, table: &[Row], start: u64, end: u64) -> Answer<LiftedRegion> {
    let pairs = pairs(chain, table)?;
    require(inside(chain, start, end), Reason::NotInside, 0)?;
    let mut lifted: Option<LiftedRegion> = None;
    for pair in pairs.filter(|pair| (start..end).contains(&pair.target)) {
        let so_far = lifted.unwrap_or(LiftedRegion {
            kept: 0,
            dropped: end - start,
            start: pair.query,
            end: pair.query + 1,
        });
        lifted = Some(LiftedRegion {
            kept: so_far.kept + 1,
            dropped: so_far.dropped - 1,
            start: so_far.start.min(pair.query),
            end: so_far.end.max(pair.query + 1),
        });
    }
    lifted.ok_or(Refusal::new(Reason::NoPair, 0))
}

/// Inside the target: start < end ≤ tSize.
fn inside(chain: &Chain, start: u64, end: u64) -> bool {
    start < end && end <= chain.t_size
}

/// Turns a chain, so that target and query exchange sides: 9, then 11 where
/// fewer rows than its blocks are lent.
pub fn turn(chain: &Chain, table: &[Row], room: usize) -> Answer<(Chain, Vec<Row>)> {
    chain::check_record(chain, table)?;
    let rows = rows::used(table, chain.block_count)?;
    require(rows.len() <= room, Reason::NoRoom, 0)?;
    let exchanged = Chain {
        t_name: chain.q_name,
        t_size: chain.q_size,
        t_start: chain.q_start,
        t_end: chain.q_end,
        q_name: chain.t_name,
        q_size: chain.t_size,
        q_start: chain.t_start,
        q_end: chain.t_end,
        ..*chain
    };
    let exchanged_rows: Vec<Row> = rows.iter().map(exchange).collect();
    match chain.q_strand {
        Strand::Minus => reverse(&exchanged, &exchanged_rows),
        _ => Ok((exchanged, exchanged_rows)),
    }
}

fn exchange(row: &Row) -> Row {
    Row {
        target: row.query,
        query: row.target,
        size: row.size,
    }
}

/// The same blocks, both sides counted on their other strands, last block first.
fn reverse(chain: &Chain, rows: &[Row]) -> Answer<(Chain, Vec<Row>)> {
    let (t_start, t_end) = convert(chain.t_size, chain.t_start, chain.t_end)?;
    let (q_start, q_end) = convert(chain.q_size, chain.q_start, chain.q_end)?;
    let reversed = Chain {
        t_start,
        t_end,
        q_start,
        q_end,
        ..*chain
    };
    let mut reversed_rows = Vec::new();
    for row in rows.iter().rev() {
        reversed_rows.push(Row {
            target: convert(chain.t_size, row.target, row.target + row.size)?.0,
            query: convert(chain.q_size, row.query, row.query + row.size)?.0,
            size: row.size,
        });
    }
    Ok((reversed, reversed_rows))
}

/// Bases asked, kept and dropped over a batch of regions.
#[derive(Clone, Copy, Debug, Default, PartialEq, Eq)]
pub struct Tally {
    pub asked: u64,
    pub kept: u64,
    pub dropped: u64,
}

impl Tally {
    /// Each field in its limit, and kept + dropped = asked.
    fn good(&self) -> bool {
        [self.asked, self.kept, self.dropped]
            .into_iter()
            .all(|field| field <= TALLY_LIMIT)
            && u128::from(self.kept) + u128::from(self.dropped) == u128::from(self.asked)
    }

    /// Whether `length` more bases can be asked.
    fn has_room(&self, length: u64) -> bool {
        u128::from(self.asked) + u128::from(length) <= u128::from(TALLY_LIMIT)
    }

    fn plus(&self, kept: u64, dropped: u64) -> Tally {
        Tally {
            asked: self.asked + kept + dropped,
            kept: self.kept + kept,
            dropped: self.dropped + dropped,
        }
    }
}

/// One region with a tally: lifts it and answers the tally it leaves behind.
/// Refused by 9, 13, 10 (bad tally) or 5 (asked would pass its limit) it leaves
/// the tally; refused by 12 it adds its length to asked and dropped.
pub fn step(
    chain: &Chain,
    table: &[Row],
    start: u64,
    end: u64,
    tally: Tally,
) -> (Tally, Answer<LiftedRegion>) {
    let answer = match lift_region(chain, table, start, end) {
        Err(refusal) if refusal.reason != Reason::NoPair => Err(refusal),
        lifted => tally_ready(&tally, end - start).map(|()| lifted),
    };
    match answer {
        Err(refusal) => (tally, Err(refusal)),
        Ok(Ok(lifted)) => (tally.plus(lifted.kept, lifted.dropped), Ok(lifted)),
        Ok(Err(no_pair)) => (tally.plus(0, end - start), Err(no_pair)),
    }
}

fn tally_ready(tally: &Tally, length: u64) -> Answer<()> {
    require(tally.good(), Reason::BadCounts, 0)?;
    require(tally.has_room(length), Reason::OutOfRange, 0)
}

/// One answer of a batch: 0, kept, dropped, start and end of the query region; or the
/// refusal's number and four zeros.
pub type BatchRow = [u64; 5];

/// A batch of regions, each a start and an end, through one chain, with `room` rows lent
/// for the answers: a row for each region, and the tally after the last. Fewer rows than
/// regions is 11, before all else; then no region counts as sent.
pub fn batch(
    chain: &Chain,
    table: &[Row],
    regions: &[(u64, u64)],
    room: usize,
    tally: Tally,
) -> Answer<(Tally, Vec<BatchRow>)> {
    require(regions.len() <= room, Reason::NoRoom, 0)?;
    let mut after = tally;
    let mut rows = Vec::new();
    for (start, end) in regions {
        let (left, answer) = step(chain, table, *start, *end, after);
        after = left;
        rows.push(batch_row(answer));
    }
    Ok((after, rows))
}

fn batch_row(answer: Answer<LiftedRegion>) -> BatchRow {
    match answer {
        Ok(lifted) => [0, lifted.kept, lifted.dropped, lifted.start, lifted.end],
        Err(refusal) => [u64::from(refusal.reason.number()), 0, 0, 0, 0],
    }
}

/// A region sent with the record and rows to lift it through.
#[derive(Clone, Copy, Debug)]
pub struct Sent<'r> {
    pub chain: &'r Chain,
    pub table: &'r [Row],
    pub start: u64,
    pub end: u64,
}

/// The sums of demand 3 over a list of regions, counted in the pairs. A region is
/// passed over where the record is no accepted chain, where it isn't inside the
/// target, or where its length would carry asked past its limit.
pub fn sums(regions: &[Sent]) -> Tally {
    let mut sums = Tally::default();
    for sent in regions {
        let Ok(pairs) = pairs(sent.chain, sent.table) else {
            continue;
        };
        if !inside(sent.chain, sent.start, sent.end) || !sums.has_room(sent.end - sent.start) {
            continue;
        }
        let kept = pairs
            .filter(|pair| sent.start <= pair.target && pair.target < sent.end)
            .count() as u64;
        sums = sums.plus(kept, sent.end - sent.start - kept);
    }
    sums
}
