//! Why a line is not lifted, in words, and as a summary counts it.

use crate::loss::{Loss, LostPart};
use crate::part::Part;
use tenderchock::Refusal;

/// Most ids of chains that are listed.
const MOST_IDS: usize = 8;

pub enum Why {
    /// No chain of the file has its chrom as target; one has this target, which is
    /// nearly the same.
    NoChain(Option<Vec<u8>>),
    /// It keeps bases in several chains, with these ids.
    Several(Vec<u64>),
    /// A part of it is lost, and so many others.
    Lost(LostPart, usize),
    /// The lifted line is refused, or the tally is full.
    Refused(Refusal),
    /// The blocks are lifted, but too far apart: bases on the query, and on the target.
    Apart(u64, u64),
    /// A note counts as a refusal.
    Noted(String),
}

impl Loss {
    fn told(&self, one_of_many: bool) -> String {
        match self {
            Loss::Refused(refusal) if one_of_many && refusal.number == 12 => "no pair".to_string(),
            Loss::Refused(refusal) => by_number(refusal),
            Loss::Kept(kept, asked) => format!("keeps {kept} of {asked} bases"),
            Loss::Grown(length, asked) => {
                format!("its query region has {length} bases, and {asked} were asked")
            }
        }
    }

    fn reason(&self) -> Reason {
        match self {
            Loss::Refused(refusal) => Reason::of(refusal),
            Loss::Kept(..) => Reason::Kept,
            Loss::Grown(..) => Reason::Grown,
        }
    }
}

impl LostPart {
    pub fn told(&self) -> String {
        let (at, of) = (self.at, self.of);
        let Part { start, end } = self.part;
        match of {
            1 => self.loss.told(false),
            _ => format!(
                "block {at} of {of} ({start}-{end}): {}",
                self.loss.told(true)
            ),
        }
    }
}

impl Why {
    pub fn told(&self, chrom: &[u8]) -> String {
        match self {
            Why::NoChain(None) => format!("no chain has the target {}", chrom.escape_ascii()),
            Why::NoChain(Some(near)) => format!(
                "no chain has the target {}, but one has {}: rename one side",
                chrom.escape_ascii(),
                near.escape_ascii()
            ),
            Why::Several(ids) => several(ids),
            Why::Lost(lost, 0) => lost.told(),
            Why::Lost(lost, 1) => format!("{}; and 1 other is lost", lost.told()),
            Why::Lost(lost, others) => format!("{}; and {others} others are lost", lost.told()),
            Why::Refused(refusal) => by_number(refusal),
            Why::Apart(length, asked) => format!(
                "its blocks are lifted to a region of {length} bases, and stood in one of {asked}"
            ),
            Why::Noted(note) => format!("a note counts as a refusal: {note}"),
        }
    }

    pub fn reason(&self) -> Reason {
        match self {
            Why::NoChain(_) => Reason::NoChain,
            Why::Several(_) => Reason::Several,
            Why::Lost(lost, _) => lost.loss.reason(),
            Why::Refused(_) | Why::Noted(_) => Reason::Refused,
            Why::Apart(..) => Reason::Grown,
        }
    }
}

fn several(ids: &[u64]) -> String {
    let listed: Vec<String> = ids.iter().take(MOST_IDS).map(u64::to_string).collect();
    let more = match ids.len().saturating_sub(MOST_IDS) {
        0 => String::new(),
        more => format!(" and {more} more"),
    };
    format!(
        "it keeps bases in {} chains, with the ids {}{more}",
        ids.len(),
        listed.join(", ")
    )
}

fn by_number(refusal: &Refusal) -> String {
    format!("refused by {}: {}", refusal.number, refusal.meaning())
}

/// The reasons as a summary counts them.
#[derive(Clone, Copy, Debug, PartialEq, Eq)]
pub enum Reason {
    Refused,
    NoChain,
    Several,
    NoPair,
    Outside,
    Kept,
    Grown,
}

impl Reason {
    /// Each with its column, in their order.
    pub const ALL: [(Reason, &'static str); 7] = [
        (Reason::Refused, "refused"),
        (Reason::NoChain, "no_chain"),
        (Reason::Several, "several_chains"),
        (Reason::NoPair, "no_pair"),
        (Reason::Outside, "outside_target"),
        (Reason::Kept, "below_min_kept"),
        (Reason::Grown, "over_max_grow"),
    ];

    fn of(refusal: &Refusal) -> Reason {
        match refusal.number {
            12 => Reason::NoPair,
            13 => Reason::Outside,
            _ => Reason::Refused,
        }
    }
}
