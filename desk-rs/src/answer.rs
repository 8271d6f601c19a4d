//! The library's answers: a count, or a refusal with its number and place.

use std::error::Error;
use std::fmt;

/// A refusal: its number in the ledger, and its place, a byte offset in the text.
#[derive(Clone, Copy, Debug, PartialEq, Eq)]
pub struct Refusal {
    pub number: u8,
    pub place: usize,
}

impl Refusal {
    /// What its number means.
    pub fn meaning(&self) -> &'static str {
        meaning(self.number)
    }
}

impl fmt::Display for Refusal {
    fn fmt(&self, f: &mut fmt::Formatter<'_>) -> fmt::Result {
        let Refusal { number, place } = self;
        write!(f, "refused by {number} at byte {place}: {}", self.meaning())
    }
}

impl Error for Refusal {}

/// What a number of the ledger means, in plain words.
pub fn meaning(number: u8) -> &'static str {
    match number {
        1 => "the text is over 65,536 bytes",
        2 => "wrong number of words or lines",
        3 => "a byte that is not allowed",
        4 => "a number is misspelt, or a list item is empty",
        5 => "a number is outside its range",
        6 => "a bad fixed word, strand or name length",
        7 => "start, end and size disagree",
        8 => "the list's length differs from the block count",
        9 => "the blocks break their rules",
        10 => "the counts disagree",
        11 => "over 512 blocks, or too little room",
        12 => "no pair for this position or region",
        13 => "the position or region is not inside the target",
        _ => "a number that is not in the ledger",
    }
}

/// Takes an answer, `16 × value + reason`, apart.
pub(crate) fn taken(answer: u64) -> Result<u64, Refusal> {
    let (number, value) = ((answer % 16) as u8, answer / 16);
    match number {
        0 => Ok(value),
        _ => Err(Refusal {
            number,
            place: usize::try_from(value).unwrap_or(usize::MAX),
        }),
    }
}

/// Numbers that an entry wrote, 8 bytes each, the lowest first.
pub(crate) struct Numbers<'b> {
    bytes: &'b [u8],
}

impl<'b> Numbers<'b> {
    /// The first `count` numbers of what was lent.
    pub(crate) fn of(lent: &'b [u8], count: u64) -> Numbers<'b> {
        let length = usize::try_from(count).unwrap_or(0).saturating_mul(8);
        Numbers {
            bytes: lent.get(..length).unwrap_or(lent),
        }
    }

    /// The next number; past the last one, 0.
    pub(crate) fn next(&mut self) -> u64 {
        match self.bytes.split_first_chunk::<8>() {
            Some((number, rest)) => {
                self.bytes = rest;
                u64::from_le_bytes(*number)
            }
            None => 0,
        }
    }

    /// How many numbers are left.
    pub(crate) fn left(&self) -> usize {
        self.bytes.len() / 8
    }
}
