//! Which parts of a line are lost: by the library's word, for the share of bases that
//! they keep, or for the length that they grow to.

use crate::args::Lifting;
use crate::part::Part;
use tenderchock::{LiftedRegion, Refusal};

/// Why a part of a line is lost.
#[derive(Clone, Copy, Debug, PartialEq, Eq)]
pub enum Loss {
    /// By the library: no pair, or not inside the target.
    Refused(Refusal),
    /// Bases kept, and asked.
    Kept(u64, u64),
    /// Bases of the query region, and asked.
    Grown(u64, u64),
}

/// A part of a line that is lost.
#[derive(Clone, Copy, Debug, PartialEq, Eq)]
pub struct LostPart {
    /// Which one, from 1, and of how many.
    pub at: usize,
    pub of: usize,
    pub part: Part,
    pub loss: Loss,
}

/// The region that a part is lifted to, unless it is lost.
pub fn tested(
    region: Result<LiftedRegion, Refusal>,
    options: &Lifting,
) -> Result<LiftedRegion, Loss> {
    let region = region.map_err(Loss::Refused)?;
    let (asked, length) = (
        region.kept + region.dropped,
        Part::of_region(&region).length(),
    );
    if !options.min_kept.is_reached(region.kept, asked) {
        Err(Loss::Kept(region.kept, asked))
    } else if !options.max_grow.is_kept_to(length, asked) {
        Err(Loss::Grown(length, asked))
    } else {
        Ok(region)
    }
}

#[cfg(test)]
mod tests {
    use super::*;
    use crate::ratio::Ratio;

    fn region(kept: u64, dropped: u64, length: u64) -> LiftedRegion {
        LiftedRegion {
            kept,
            dropped,
            start: 7,
            end: 7 + length,
        }
    }

    #[test]
    fn a_part_is_lost_by_share_or_by_length() {
        let usual = Lifting::default();
        let liftover = Lifting {
            min_kept: Ratio::OF_LIFTOVER,
            ..usual
        };
        let far = Refusal {
            number: 13,
            place: 0,
        };
        assert_eq!(tested(Err(far), &usual), Err(Loss::Refused(far)));
        for (kept, dropped, length, options, wanted) in [
            (10, 0, 20, usual, None),
            (10, 0, 21, usual, Some(Loss::Grown(21, 10))),
            (99, 1, 99, usual, Some(Loss::Kept(99, 100))),
            (95, 5, 200, liftover, None),
            (95, 5, 201, liftover, Some(Loss::Grown(201, 100))),
            (94, 6, 94, liftover, Some(Loss::Kept(94, 100))),
        ] {
            let region = region(kept, dropped, length);
            assert_eq!(
                tested(Ok(region), &options),
                wanted.map_or(Ok(region), Err),
                "{kept} {dropped} {length}"
            );
        }
    }
}
