//! Strand conversion, lifting through a chain, turning a chain, and the tally of
//! a batch. A chain is handed in as its text.

use crate::answer::{taken, Refusal};
use crate::sys;
use crate::texts::Room;

/// Start and end on the other strand of a sequence: size − end and size − start.
pub fn convert(start: u64, end: u64, size: u64) -> Result<(u64, u64), Refusal> {
    let [start, end] = numbers(|out| sys::convert(start, end, size, out))?;
    Ok((start, end))
}

/// A position's partner, and the drift, partner minus position.
#[derive(Clone, Copy, Debug, PartialEq, Eq)]
pub struct LiftedPosition {
    pub partner: u64,
    pub drift: i64,
}

/// Lifts a target position through a chain.
pub fn lift_position(chain: &[u8], position: u64) -> Result<LiftedPosition, Refusal> {
    let [partner, drift] = numbers(|out| sys::lift_position(chain, position, out))?;
    let drift = drift as i64;
    Ok(LiftedPosition { partner, drift })
}

/// A region's bases in a pair and in none, and the smallest query region that
/// holds all partners, on the forward strand.
#[derive(Clone, Copy, Debug, PartialEq, Eq)]
pub struct LiftedRegion {
    pub kept: u64,
    pub dropped: u64,
    pub start: u64,
    pub end: u64,
}

/// Lifts a target region through a chain.
pub fn lift_region(chain: &[u8], start: u64, end: u64) -> Result<LiftedRegion, Refusal> {
    let answer = numbers(|out| sys::lift_region(chain, start, end, out))?;
    let [kept, dropped, start, end] = answer;
    Ok(LiftedRegion {
        kept,
        dropped,
        start,
        end,
    })
}

/// The standard text of a chain turned: target and query exchange sides.
pub fn turn(chain: &[u8]) -> Result<Vec<u8>, Refusal> {
    Ok(Room::new().turn(chain)?.to_vec())
}

/// Bases asked, kept and dropped over a batch of regions.
#[derive(Clone, Copy, Debug, Default, PartialEq, Eq)]
pub struct Tally {
    pub asked: u64,
    pub kept: u64,
    pub dropped: u64,
}

impl Tally {
    /// Sends one region through a chain; answers the bases kept. A region refused
    /// by 12 counts as asked and dropped; any other refusal leaves the tally.
    pub fn add(&mut self, chain: &[u8], start: u64, end: u64) -> Result<u64, Refusal> {
        self.lent(|tally| sys::tally(chain, start, end, tally))
    }

    /// Lends the tally to an entry, as 3 numbers, and takes back what it left.
    pub(crate) fn lent(&mut self, entry: impl FnOnce(&mut [u8]) -> u64) -> Result<u64, Refusal> {
        let mut lent = [self.asked, self.kept, self.dropped].map(u64::to_le_bytes);
        let answer = taken(entry(lent.as_flattened_mut()));
        [self.asked, self.kept, self.dropped] = lent.map(u64::from_le_bytes);
        answer
    }
}

/// The few numbers that an entry writes.
fn numbers<const N: usize>(entry: impl FnOnce(&mut [u8]) -> u64) -> Result<[u64; N], Refusal> {
    let mut out = [[0; 8]; N];
    taken(entry(out.as_flattened_mut()))?;
    Ok(out.map(u64::from_le_bytes))
}
