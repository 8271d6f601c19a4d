//! The same jobs in plain Rust, written for speed: one split of each line into
//! words, numbers read in place, no allocation. The checks and their order are
//! the ledger's, and a refusal leaves the lent rows and bytes as they were.

mod batch;
mod bed;
mod chain;
mod numbers;
mod psl;
mod standard;
mod words;

pub use batch::lift_batch;
pub use bed::Bed;
pub use chain::{lift_region, Chain};
pub use numbers::{read as numbers, room as numbers_room, Numbers};
pub use psl::Psl;
pub use standard::Standard;
pub use words::{Answer, Refused};

/// Most bytes in a text.
const TEXT_LIMIT: usize = 65_536;
/// Most blocks in a record.
pub const BLOCK_LIMIT: usize = 512;
/// Largest coordinate, size or PSL count.
pub const LIMIT: u64 = 2_147_483_647;

/// One block.
#[derive(Clone, Copy, Default)]
pub struct Row {
    pub target: u64,
    pub query: u64,
    pub size: u64,
}

/// Room for the rows of one record.
pub type Rows = [Row; BLOCK_LIMIT];

/// Working room, used again for each text.
pub struct Room {
    rows: Rows,
    columns: batch::Columns,
    bytes: standard::Bytes,
}

impl Room {
    pub fn new() -> Room {
        Room {
            rows: [Row::default(); BLOCK_LIMIT],
            columns: batch::Columns::new(),
            bytes: [0; TEXT_LIMIT],
        }
    }
}

/// What a text of one kind holds, besides its rows.
pub trait Record: Sized {
    /// Reads a text; its blocks go to the rows.
    fn read(text: &[u8], rows: &mut Rows) -> Answer<Self>;
    fn block_count(&self) -> usize;
    /// The numbers that the library's parse entry gives before the rows.
    fn numbers(&self) -> Vec<u64>;
    /// Writes the standard text of what was read from this text.
    fn write(&self, text: &[u8], rows: &[Row], out: &mut Standard);
}

/// Checks a text; answers its number of blocks.
pub fn check<R: Record>(text: &[u8], room: &mut Room) -> Answer<usize> {
    Ok(R::read(text, &mut room.rows)?.block_count())
}

/// Reads a text into a record and the lent rows.
pub fn parse<R: Record>(text: &[u8], room: &mut Room, lent: &mut [Row]) -> Answer<R> {
    let record = R::read(text, &mut room.rows)?;
    let rows = &room.rows[..record.block_count()];
    match lent.get_mut(..rows.len()) {
        Some(front) => {
            front.copy_from_slice(rows);
            Ok(record)
        }
        None => Err(Refused::new(11, text.len())),
    }
}

/// Writes the standard text of a text into the lent bytes; answers its length.
pub fn format<R: Record>(text: &[u8], room: &mut Room, lent: &mut [u8]) -> Answer<usize> {
    let record = R::read(text, &mut room.rows)?;
    let mut out = Standard::new(&mut room.bytes);
    record.write(text, &room.rows[..record.block_count()], &mut out);
    out.hand_over(lent, text.len())
}

/// Blocks on one side that start at `start`, don't overlap, and end at `end`.
fn fill(rows: &[Row], side: impl Fn(&Row) -> u64, start: u64, end: u64) -> bool {
    let mut at = start;
    for row in rows {
        if side(row) < at {
            return false;
        }
        at = side(row) + row.size;
    }
    rows.first().map(side) == Some(start) && at == end
}
