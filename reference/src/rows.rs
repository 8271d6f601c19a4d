//! The table of rows that a record's blocks go to.

use crate::ledger::{require, Answer, Reason, BLOCK_LIMIT, COORDINATE_LIMIT};

/// One block: where it starts on the target, where on the query (with `-`, on
/// the reversed query), and its size.
#[derive(Clone, Copy, Debug, PartialEq, Eq)]
pub struct Row {
    pub target: u64,
    pub query: u64,
    pub size: u64,
}

/// The start and end of a block on one side.
pub type Span = (u128, u128);

/// The first `count` rows of a table. A count of 0, over 512 or past the table
/// is refused by 9.
pub fn used(table: &[Row], count: u64) -> Answer<&[Row]> {
    let good = (1..=BLOCK_LIMIT).contains(&count) && count <= table.len() as u64;
    require(good, Reason::BadBlocks, 0)?;
    Ok(&table[..count as usize])
}

/// Whether every number of every row is in its range.
pub fn in_range(rows: &[Row]) -> bool {
    rows.iter()
        .all(|row| coordinate(row.target) && coordinate(row.query) && sequence_size(row.size))
}

/// Whether this may be a coordinate or a PSL count.
pub fn coordinate(number: u64) -> bool {
    number <= COORDINATE_LIMIT
}

/// Whether this may be the size of a block or of a sequence.
pub fn sequence_size(number: u64) -> bool {
    (1..=COORDINATE_LIMIT).contains(&number)
}

/// The blocks on the target.
pub fn target_spans(rows: &[Row]) -> Vec<Span> {
    rows.iter().map(|row| span(row.target, row.size)).collect()
}

/// The blocks on the query.
pub fn query_spans(rows: &[Row]) -> Vec<Span> {
    rows.iter().map(|row| span(row.query, row.size)).collect()
}

fn span(start: u64, size: u64) -> Span {
    (u128::from(start), u128::from(start) + u128::from(size))
}

/// Whether the blocks begin at `start`, come one after the other without
/// overlap, and end at `end`.
pub fn fill(spans: &[Span], start: u64, end: u64) -> bool {
    let first = spans.first().map(|span| span.0);
    let last = spans.last().map(|span| span.1);
    first == Some(u128::from(start))
        && last == Some(u128::from(end))
        && spans.windows(2).all(|two| two[0].1 <= two[1].0)
}

/// The bases between each block and the next, of blocks that don't overlap.
pub fn gaps(spans: &[Span]) -> Vec<u128> {
    spans.windows(2).map(|two| two[1].0 - two[0].1).collect()
}

/// The sum of all block sizes.
pub fn bases(rows: &[Row]) -> u128 {
    rows.iter().map(|row| u128::from(row.size)).sum()
}

/// Whether the first `count` rows of two tables agree.
pub fn same_used(left: &[Row], right: &[Row], count: u64) -> bool {
    match (used(left, count), used(right, count)) {
        (Ok(left), Ok(right)) => left == right,
        _ => false,
    }
}
