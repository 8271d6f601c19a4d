//! Batches of regions: drawn for a chain, sent with a tally, and compared.

use crate::compare::{bytes_of, Compare};
use crate::expected::{self, BATCH_ROW};
use reference::chain::Chain;
use reference::ledger::Answer;
use reference::rows::Row;
use tenderchock::sys;

/// A start and an end.
pub type Region = (u64, u64);

impl Compare<'_> {
    /// A batch through a chain's text, accepted or not, with a tally of any kind.
    pub fn batch(&mut self, text: &[u8], read: &Answer<(Chain, Vec<Row>)>) {
        let regions = self.any_regions(read);
        let some = &regions[..self.dice.index(regions.len() + 1)];
        let length = |(start, end): &Region| end.saturating_sub(*start);
        let asked = some.iter().map(length).fold(0, u64::saturating_add);
        let mut tally = self.any_lent_tally(asked);
        self.batch_call(text, &regions, &mut tally);
    }

    /// These regions as one call, in room that is short, exact or more, and now and then
    /// with a part of a region behind them. Whether they count as sent.
    pub fn batch_call(&mut self, text: &[u8], regions: &[Region], tally: &mut [u8]) -> bool {
        let mut asked = bytes_of(regions.iter().flat_map(|&(a, b)| [a, b]).collect());
        if self.dice.once_in(12) {
            let more = self.dice.between(1, 15) as usize;
            asked.extend(self.dice.bytes(more));
        }
        let needed = regions.len() * BATCH_ROW;
        let room = match self.dice.between(0, 9) {
            0 => self.dice.index(needed + 1),
            1 => needed.saturating_sub(1),
            2 => needed + self.dice.index(4 * BATCH_ROW),
            3 | 4 => needed + self.dice.index(BATCH_ROW),
            _ => needed,
        };
        let mut out = self.dice.bytes(room);
        let (mut left, mut after) = (tally.to_vec(), out.clone());
        let answer = expected::lift_batch(text, &asked, &mut left, &mut after);
        let got = sys::lift_batch(text, &asked, tally, &mut out);
        self.number("lift batch", got, &answer);
        let label = self.label;
        assert!(
            tally == left,
            "{label}: the tally after a batch of {asked:?}"
        );
        assert!(out == after, "{label}: the rows of a batch of {asked:?}");
        let answered = if answer.is_ok() { needed } else { 0 };
        for row in out[..answered].chunks_exact(BATCH_ROW) {
            *self.seen.entry(("batch row", row[0])).or_default() += 1;
        }
        answer.is_ok()
    }

    /// Up to 40 regions: whole targets, gaps, short and long ones, empty and outside.
    pub fn any_regions(&mut self, read: &Answer<(Chain, Vec<Row>)>) -> Vec<Region> {
        let most = self.dice.of(&[0, 1, 4, 12, 12, 40]);
        let count = self.dice.between(most / 2, most);
        (0..count).map(|_| self.any_region(read)).collect()
    }

    fn any_region(&mut self, read: &Answer<(Chain, Vec<Row>)>) -> Region {
        let edges = self.edges(read);
        let start = self.near(&edges);
        let others = self.edges(read);
        match (self.dice.between(0, 11), read) {
            (0, Ok((chain, _))) => (0, chain.t_size),
            (1 | 2, Ok((chain, rows))) => self.gap(chain, rows),
            (3..=5, _) => (start, start.saturating_add(self.dice.between(0, 3))),
            (6, _) => (start, self.near(&others)),
            _ => {
                let end = self.near(&others);
                (start.min(end), start.max(end))
            }
        }
    }

    /// From a block's end to the next one's start, or to the target's end; it may be empty.
    fn gap(&mut self, chain: &Chain, rows: &[Row]) -> Region {
        let at = self.dice.index(rows.len());
        let next = rows.get(at + 1).map_or(chain.t_size, |row| row.target);
        (rows[at].target + rows[at].size, next)
    }
}
