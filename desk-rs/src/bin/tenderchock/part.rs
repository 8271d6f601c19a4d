//! A part of a sequence, from a start up to an end.

use tenderchock::{Bed, LiftedRegion};

/// A block of a line, its whole span, or where either stands on the query.
#[derive(Clone, Copy, Debug, PartialEq, Eq)]
pub struct Part {
    pub start: u64,
    pub end: u64,
}

impl Part {
    pub fn length(self) -> u64 {
        self.end - self.start
    }

    pub fn overlaps(self, other: Part) -> bool {
        self.start < other.end && other.start < self.end
    }

    /// The smallest part that holds all of these; there is at least one.
    pub fn around(parts: impl Iterator<Item = Part>) -> Part {
        let nothing = Part {
            start: u64::MAX,
            end: 0,
        };
        parts.fold(nothing, |whole, part| Part {
            start: whole.start.min(part.start),
            end: whole.end.max(part.end),
        })
    }

    /// Where a lifted region stands on the query.
    pub fn of_region(region: &LiftedRegion) -> Part {
        Part {
            start: region.start,
            end: region.end,
        }
    }

    /// A line's blocks; one without block columns has one, its span.
    pub fn blocks(bed: &Bed) -> Vec<Part> {
        let block = |row: &tenderchock::Row| Part {
            start: row.target_start,
            end: row.target_start + row.size,
        };
        bed.rows.iter().map(block).collect()
    }

    /// A line from chromStart to chromEnd.
    pub fn span(bed: &Bed) -> Part {
        Part {
            start: bed.chrom_start,
            end: bed.chrom_end,
        }
    }
}
