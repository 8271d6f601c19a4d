//! The refusal ledger, the strand kind and the limits.

/// Most bytes in a text.
pub const TEXT_LIMIT: usize = 65_536;
/// Most bytes in a name.
pub const NAME_LIMIT: u64 = 64;
/// Most blocks in a record.
pub const BLOCK_LIMIT: u64 = 512;
/// Largest coordinate, size or PSL count.
pub const COORDINATE_LIMIT: u64 = 2_147_483_647;
/// Largest chain score.
pub const CHAIN_SCORE_LIMIT: u64 = 999_999_999_999_999_999;
/// Largest number in a text of numbers.
pub const NUMBER_LIMIT: u64 = 999_999_999_999_999_999;
/// Largest chain id.
pub const CHAIN_ID_LIMIT: u64 = 4_294_967_295;
/// Largest BED score.
pub const BED_SCORE_LIMIT: u64 = 1000;
/// Largest part of a colour.
pub const COLOUR_LIMIT: u64 = 255;
/// Largest value of a tally's field.
pub const TALLY_LIMIT: u64 = 9_223_372_036_854_775_807;

/// Why a call is refused; `number` is its number in the ledger.
#[derive(Clone, Copy, Debug, PartialEq, Eq)]
pub enum Reason {
    /// 1: text over the text limit.
    TextTooLong = 1,
    /// 2: wrong number of words or lines.
    WrongCount,
    /// 3: byte not allowed.
    BadByte,
    /// 4: a number is misspelt or a list item empty.
    Misspelt,
    /// 5: a number outside its range.
    OutOfRange,
    /// 6: bad fixed word, strand or name length.
    BadWord,
    /// 7: start, end and size disagree.
    BadSpan,
    /// 8: list length differs from the count.
    ListLength,
    /// 9: blocks break their rules.
    BadBlocks,
    /// 10: PSL counts, or a tally, disagree.
    BadCounts,
    /// 11: over 512 chain blocks; lent room too small.
    NoRoom,
    /// 12: no pair for this position or region.
    NoPair,
    /// 13: position or region not inside the target.
    NotInside,
}

impl Reason {
    /// The number in the ledger.
    pub fn number(self) -> u8 {
        self as u8
    }
}

/// A reason and the byte offset it stands at.
#[derive(Clone, Copy, Debug, PartialEq, Eq)]
pub struct Refusal {
    pub reason: Reason,
    pub place: usize,
}

impl Refusal {
    pub fn new(reason: Reason, place: usize) -> Refusal {
        Refusal { reason, place }
    }

    /// The same refusal, `by` bytes further on.
    pub fn moved(self, by: usize) -> Refusal {
        Refusal::new(self.reason, self.place + by)
    }
}

/// What was asked for, or a refusal.
pub type Answer<T> = Result<T, Refusal>;

/// Refuses with `reason` at `place` unless the rule holds.
pub fn require(holds: bool, reason: Reason, place: usize) -> Answer<()> {
    if holds {
        Ok(())
    } else {
        Err(Refusal::new(reason, place))
    }
}

/// The strand of a feature or of a query.
#[derive(Clone, Copy, Debug, PartialEq, Eq)]
pub enum Strand {
    Plus,
    Minus,
    Dot,
}

impl Strand {
    /// The other strand; no strand (`.`) is its own opposite.
    pub fn opposite(self) -> Strand {
        match self {
            Strand::Plus => Strand::Minus,
            Strand::Minus => Strand::Plus,
            Strand::Dot => Strand::Dot,
        }
    }

    /// The letter that spells this strand.
    pub fn letter(self) -> u8 {
        match self {
            Strand::Plus => b'+',
            Strand::Minus => b'-',
            Strand::Dot => b'.',
        }
    }

    /// The strand that a letter spells, if it spells one.
    pub fn from_letter(letter: u8) -> Option<Strand> {
        [Strand::Plus, Strand::Minus, Strand::Dot]
            .into_iter()
            .find(|strand| strand.letter() == letter)
    }
}

#[cfg(test)]
mod tests {
    use super::*;

    #[test]
    fn reasons_are_numbered_as_in_the_ledger() {
        assert_eq!(Reason::TextTooLong.number(), 1);
        assert_eq!(Reason::WrongCount.number(), 2);
        assert_eq!(Reason::BadByte.number(), 3);
        assert_eq!(Reason::Misspelt.number(), 4);
        assert_eq!(Reason::OutOfRange.number(), 5);
        assert_eq!(Reason::BadWord.number(), 6);
        assert_eq!(Reason::BadSpan.number(), 7);
        assert_eq!(Reason::ListLength.number(), 8);
        assert_eq!(Reason::BadBlocks.number(), 9);
        assert_eq!(Reason::BadCounts.number(), 10);
        assert_eq!(Reason::NoRoom.number(), 11);
        assert_eq!(Reason::NoPair.number(), 12);
        assert_eq!(Reason::NotInside.number(), 13);
    }

    #[test]
    fn strands_have_opposites_and_letters() {
        for strand in [Strand::Plus, Strand::Minus, Strand::Dot] {
            assert_eq!(strand.opposite().opposite(), strand);
            assert_eq!(Strand::from_letter(strand.letter()), Some(strand));
        }
        assert_eq!(Strand::Plus.opposite(), Strand::Minus);
        assert_eq!(Strand::Dot.opposite(), Strand::Dot);
        assert_eq!(Strand::from_letter(b'*'), None);
    }
}
