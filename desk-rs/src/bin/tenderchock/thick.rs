//! The thick part of a line on the query. It is lifted by itself; an end in no pair moves
//! inward to the next base that is kept.

use crate::part::Part;
use crate::round::Answer;
use tenderchock::Bed;

/// Whether a line has a thick part, and one with a length.
pub fn is_there(bed: &Bed) -> bool {
    bed.word_count > 6 && bed.thick_start < bed.thick_end
}

/// What is to be asked about it, if the line is lifted from this part of the target:
/// itself, its first base and its last.
pub fn questions(bed: &Bed, target: Part) -> Vec<Part> {
    let within = within(bed, target);
    let Part { start, end } = within;
    match start < end {
        true => vec![
            within,
            Part {
                start,
                end: start + 1,
            },
            Part {
                start: end - 1,
                end,
            },
        ],
        false => Vec::new(),
    }
}

/// As far as it lies in this part; else it ends where it starts, or before.
fn within(bed: &Bed, target: Part) -> Part {
    Part {
        start: bed.thick_start.max(target.start),
        end: bed.thick_end.min(target.end),
    }
}

/// Where it stands on the query, by the answers, and what is to be told of it.
pub fn lifted(bed: &Bed, target: Part, answers: &[Answer]) -> (Option<Part>, Vec<String>) {
    let [Ok(region), first, last] = answers else {
        return (None, vec!["the thick part keeps no base".to_string()]);
    };
    let Part { start, end } = within(bed, target);
    let ends = [
        ("thickStart", bed.thick_start, start, first),
        ("thickEnd", bed.thick_end, end, last),
    ];
    let moved = ends
        .iter()
        .filter(|(_, at, found, base)| at != found || base.is_err());
    let told =
        moved.map(|(end, at, ..)| format!("{end} {at} moves inward, to a base that is kept"));
    (Some(Part::of_region(region)), told.collect())
}
