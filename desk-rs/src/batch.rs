//! A batch of regions through one chain, whose text is read once for all of them.

use crate::answer::Refusal;
use crate::lift::{LiftedRegion, Tally};
use crate::sys;

/// Lifts regions, each a start and an end, through a chain. Each has its own answer,
/// as [`crate::lift_region`] gives it, and the tally grows as by [`Tally::add`], one
/// after the other; a region that takes it over its limit is refused by 5 and leaves
/// it. A refused chain gives no answers.
///
/// ```
/// use tenderchock::{lift_batch, LiftedRegion, Refusal, Tally};
///
/// let chain = b"chain 100 tA 100 + 10 40 qB 80 - 5 33 7\n10 3 0\n8 0 1\n9\n";
/// let mut tally = Tally::default();
/// let lifted = lift_batch(chain, &[(18, 25), (20, 23), (20, 20), (0, 101)], &mut tally);
///
/// let across = LiftedRegion { kept: 4, dropped: 3, start: 63, end: 67 };
/// let refused = |number| Err(Refusal { number, place: 0 });
/// assert_eq!(lifted, Ok(vec![Ok(across), refused(12), refused(13), refused(13)]));
/// assert_eq!(tally, Tally { asked: 10, kept: 4, dropped: 6 });
/// ```
pub fn lift_batch(
    chain: &[u8],
    regions: &[(u64, u64)],
    tally: &mut Tally,
) -> Result<Vec<Result<LiftedRegion, Refusal>>, Refusal> {
    let mut batch = Batch::new();
    for (start, end) in regions {
        batch.push(*start, *end);
    }
    let answers = batch.lift(chain, tally)?;
    Ok(answers.collect())
}

/// Regions for a chain, and room for their answers, to be used for batch after batch.
///
/// ```
/// use tenderchock::{Batch, Tally};
///
/// let chain = b"chain 100 tA 100 + 10 40 qB 80 - 5 33 7\n10 3 0\n8 0 1\n9\n";
/// let (mut batch, mut tally) = (Batch::new(), Tally::default());
/// batch.push(18, 25);
/// batch.push(20, 23);
/// let kept = batch.lift(chain, &mut tally)?.map(|region| region.map_or(0, |lifted| lifted.kept));
/// assert_eq!(kept.sum::<u64>(), tally.kept);
/// # Ok::<(), tenderchock::Refusal>(())
/// ```
#[derive(Clone, Debug, Default)]
pub struct Batch {
    /// Start and end, as the entry reads them.
    regions: Vec<[[u8; 8]; 2]>,
    /// 0 and the lifted region, or the refusal's number, as the entry writes them.
    rows: Vec<[[u8; 8]; 5]>,
}

impl Batch {
    pub fn new() -> Batch {
        Batch::default()
    }

    /// Forgets its regions; what they stood in is kept for others.
    pub fn clear(&mut self) {
        self.regions.clear();
    }

    /// Adds a region.
    pub fn push(&mut self, start: u64, end: u64) {
        self.regions.push([start, end].map(u64::to_le_bytes));
    }

    /// How many regions it has.
    pub fn len(&self) -> usize {
        self.regions.len()
    }

    pub fn is_empty(&self) -> bool {
        self.regions.is_empty()
    }

    /// Sends the regions through a chain, in their order; see [`lift_batch`]. The
    /// regions stay.
    pub fn lift(
        &mut self,
        chain: &[u8],
        tally: &mut Tally,
    ) -> Result<impl ExactSizeIterator<Item = Result<LiftedRegion, Refusal>> + '_, Refusal> {
        self.rows.resize(self.regions.len(), Default::default());
        let regions = self.regions.as_flattened().as_flattened();
        let rows = self.rows.as_flattened_mut().as_flattened_mut();
        tally.lent(|tally| sys::lift_batch(chain, regions, tally, rows))?;
        Ok(self.rows.iter().map(answer))
    }
}

fn answer(row: &[[u8; 8]; 5]) -> Result<LiftedRegion, Refusal> {
    let [number, kept, dropped, start, end] = row.map(u64::from_le_bytes);
    match number {
        0 => Ok(LiftedRegion {
            kept,
            dropped,
            start,
            end,
        }),
        _ => Err(Refusal {
            number: number as u8,
            place: 0,
        }),
    }
}
