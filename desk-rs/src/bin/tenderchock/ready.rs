//! A line of IN on its way: its parts, and the chains that it goes through.

use std::ops::Range;

use crate::chains::Held;
use crate::part::Part;
use crate::round::{is_full, Answer};
use crate::text::Text;
use crate::why::Why;
use tenderchock::{Bed, Refusal, Tally};

/// A line of a run, ready to be told.
pub enum Ready<'w, 'c> {
    /// A line passed over, by its number.
    PassedOver(u64),
    Refused(Text<'w>, Refusal),
    Line(Text<'w>, Line<'w, 'c>),
}

/// A BED line, its parts, and the chains that it goes through, or why through none.
pub struct Line<'w, 'c> {
    pub bed: Bed<'w>,
    pub parts: Vec<Part>,
    pub through: Result<Vec<Through<'c>>, Why>,
}

/// A chain that a line goes through, and where its answers stand.
pub struct Through<'c> {
    pub chain: &'c Held,
    pub answers: Range<usize>,
    pub more: Range<usize>,
}

/// A line's parts sent through a chain, each with its answer.
pub struct Sent<'r> {
    pub chain: &'r Held,
    pub parts: &'r [Part],
    pub answers: &'r [Answer],
    /// The answers to `blocks::questions`.
    pub more: &'r [Answer],
}

impl<'c> Through<'c> {
    /// Nothing is asked yet.
    pub fn new(chain: &'c Held) -> Through<'c> {
        Through {
            chain,
            answers: 0..0,
            more: 0..0,
        }
    }
}

impl<'w, 'c> Ready<'w, 'c> {
    pub fn line(&mut self) -> Option<&mut Line<'w, 'c>> {
        match self {
            Ready::Line(_, line) => Some(line),
            _ => None,
        }
    }
}

impl Line<'_, '_> {
    /// Tallies each part in each chain, unless the tally is full.
    pub fn tally_alone(&self, tally: &mut Tally) -> Result<(), Refusal> {
        let mut grown = *tally;
        for through in self.through.iter().flatten() {
            for part in &self.parts {
                match grown.add(&through.chain.text, part.start, part.end) {
                    Err(refusal) if is_full(&refusal) => return Err(refusal),
                    _ => (),
                }
            }
        }
        *tally = grown;
        Ok(())
    }
}
