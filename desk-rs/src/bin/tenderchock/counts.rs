//! The lines and bases of a lift, in all and by chrom.

use std::collections::BTreeMap;

use crate::args::LiftFiles;
use crate::outcome::{self, Trouble};
use crate::part::Part;
use crate::ready::Sent;
use crate::why::Reason;
use tenderchock::Tally;

/// Lines and bases of one chrom, or of all.
#[derive(Clone, Default)]
struct Row {
    lines: u64,
    lifted: u64,
    unmapped: [u64; Reason::ALL.len()],
    tally: Tally,
    /// Bases of lines that went through no chain.
    not_sent: u64,
}

/// The name of the row of lines that have no chrom, since they are refused, and of
/// the row of all lines. No chrom has a blank in its name.
const NO_CHROM: &str = "no chrom";
const ALL_CHROMS: &str = "all chroms";

/// The counts so far.
#[derive(Default)]
pub struct Counts {
    /// The chroms by name, if they are asked for.
    chroms: Option<BTreeMap<Vec<u8>, Row>>,
    /// The library's tally of the run.
    pub tally: Tally,
    pub lifted: u64,
    pub unmapped: u64,
    /// Lifted lines that dropped bases.
    pub shortened: u64,
    /// Lifted lines that lost columns.
    pub narrowed: u64,
    /// Lifted lines that lost blocks.
    pub block_lost: u64,
    /// Lines not lifted that liftOver's rule would lift.
    pub near: u64,
}

/// The bases of a line: what it added to the tally, and those that went through no chain.
#[derive(Clone, Copy, Default)]
pub struct Bases {
    tally: Tally,
    not_sent: u64,
}

impl Bases {
    /// A line that goes through no chain.
    pub fn not_sent(parts: &[Part]) -> Bases {
        Bases {
            not_sent: parts.iter().map(|part| part.length()).sum(),
            tally: Tally::default(),
        }
    }

    /// As the tally takes each answer: a part that is not inside the target isn't in it.
    pub fn of(sent: &[Sent]) -> Bases {
        let mut bases = Bases::default();
        for sent in sent {
            for (part, answer) in sent.parts.iter().zip(sent.answers) {
                let (kept, dropped) = match answer {
                    Ok(region) => (region.kept, region.dropped),
                    Err(refusal) if refusal.number == 13 => {
                        bases.not_sent += part.length();
                        continue;
                    }
                    Err(_) => (0, part.length()),
                };
                bases.tally.asked += kept + dropped;
                bases.tally.kept += kept;
                bases.tally.dropped += dropped;
            }
        }
        bases
    }
}

/// How a line ended: lifted, or not for this reason.
pub struct Ended {
    pub unmapped: Option<Reason>,
    pub bases: Bases,
}

impl Ended {
    /// A line that is no record has no bases.
    pub fn refused() -> Ended {
        Ended {
            unmapped: Some(Reason::Refused),
            bases: Bases::default(),
        }
    }
}

impl Counts {
    /// Chrom by chrom, or in all only.
    pub fn new(by_chrom: bool) -> Counts {
        Counts {
            chroms: by_chrom.then(BTreeMap::new),
            ..Counts::default()
        }
    }

    /// One line. A refused line has no chrom.
    pub fn add(&mut self, chrom: &[u8], ended: &Ended) {
        match ended.unmapped {
            None => self.lifted += 1,
            Some(_) => self.unmapped += 1,
        }
        let Some(chroms) = &mut self.chroms else {
            return;
        };
        match chroms.get_mut(chrom) {
            Some(row) => row.add(ended),
            None => chroms.entry(chrom.to_vec()).or_default().add(ended),
        }
    }

    /// Every line that was read is lifted, unmapped or passed over.
    pub fn balanced(&self, read: u64, passed_over: u64) -> Result<(), Trouble> {
        match self.lifted + self.unmapped + passed_over {
            told if told == read => Ok(()),
            told => Err(Trouble::Lost(read, told)),
        }
    }

    /// What is told at the end.
    pub fn summed_up(&self, files: &LiftFiles, read: u64, passed_over: u64) -> Vec<String> {
        let Counts {
            lifted, unmapped, ..
        } = self;
        let mut out = format!("{}: {lifted} lifted", outcome::named(&files.out));
        for (count, what) in [
            (self.shortened, "dropped bases"),
            (self.block_lost, "lost blocks"),
            (self.narrowed, "lost columns 7 to 12"),
        ] {
            if count > 0 {
                out += &format!(", of which {count} {what}");
            }
        }
        let mut not = format!("{}: {unmapped} not lifted", outcome::named(&files.unmapped));
        if self.near > 0 {
            let near = self.near;
            not += &format!(", of which {near} would be with --min-kept 0.95 (liftOver's rule)");
        }
        let Tally {
            asked,
            kept,
            dropped,
        } = self.tally;
        let s = if asked == 1 { "" } else { "s" };
        vec![
            out,
            not,
            format!(
                "lines: {read} read = {lifted} lifted + {unmapped} not lifted + {passed_over} passed over"
            ),
            format!("tally: {asked} base{s} asked, {kept} kept, {dropped} dropped"),
        ]
    }

    /// The summary as a table: a heading, a row for each chrom, and one for all.
    pub fn table(&self) -> String {
        let reasons: Vec<&str> = Reason::ALL.iter().map(|(_, name)| *name).collect();
        let mut table = format!(
            "chrom\tlines\tlifted\t{}\tbases_asked\tbases_kept\tbases_dropped\tbases_not_sent\n",
            reasons.join("\t")
        );
        for (chrom, row) in self.chroms.iter().flatten() {
            let chrom = match chrom.is_empty() {
                true => NO_CHROM.to_string(),
                false => chrom.escape_ascii().to_string(),
            };
            table += &row.line(&chrom);
        }
        table + &self.all().line(ALL_CHROMS)
    }

    /// All chroms; the bases sent are the library's tally.
    fn all(&self) -> Row {
        let mut all = Row::default();
        for row in self.chroms.iter().flat_map(BTreeMap::values) {
            all.lines += row.lines;
            all.lifted += row.lifted;
            all.not_sent += row.not_sent;
            for (sum, count) in all.unmapped.iter_mut().zip(row.unmapped) {
                *sum += count;
            }
        }
        all.tally = self.tally;
        all
    }
}

impl Row {
    fn add(&mut self, ended: &Ended) {
        let Bases { tally, not_sent } = ended.bases;
        self.lines += 1;
        self.not_sent += not_sent;
        self.tally.asked += tally.asked;
        self.tally.kept += tally.kept;
        self.tally.dropped += tally.dropped;
        match ended.unmapped {
            None => self.lifted += 1,
            Some(reason) => self.unmapped[reason as usize] += 1,
        }
    }

    fn line(&self, name: &str) -> String {
        let mut numbers = vec![self.lines, self.lifted];
        numbers.extend(self.unmapped);
        numbers.extend([
            self.tally.asked,
            self.tally.kept,
            self.tally.dropped,
            self.not_sent,
        ]);
        let words: Vec<String> = numbers.iter().map(u64::to_string).collect();
        format!("{name}\t{}\n", words.join("\t"))
    }
}

#[cfg(test)]
mod tests {
    use super::*;

    #[test]
    fn every_line_is_lifted_unmapped_or_passed_over() {
        let mut counts = Counts::new(false);
        for unmapped in [None, Some(Reason::Kept)] {
            let bases = Bases::default();
            counts.add(b"t", &Ended { unmapped, bases });
        }
        counts.add(b"", &Ended::refused());
        assert!(counts.balanced(5, 2).is_ok());
        for (read, passed_over) in [(4, 2), (6, 2), (5, 1)] {
            assert!(counts.balanced(read, passed_over).is_err());
        }
    }
}
