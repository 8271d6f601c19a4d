//! A run of lines through their chains: all that is asked of a chain, for whichever of
//! them, is asked at once.

use std::mem;

use crate::args::Lifting;
use crate::blocks;
use crate::chains::Chains;
use crate::choice::chosen;
use crate::part::Part;
use crate::ready::{Line, Ready, Sent, Through};
use crate::report::Report;
use crate::round::Round;
use crate::why::Why;
use crate::window::Waiting;
use tenderchock::{Bed, Room, Tally};

/// A run has so many blocks to ask about, or those of one line more.
const MOST_BLOCKS: usize = 8_192;

/// What lines are sent with. Its rounds are used for run after run.
pub struct Runs<'c> {
    chains: &'c Chains,
    options: &'c Lifting,
    room: Room,
    /// Lines with several candidates, to choose of them.
    several: Round<'c>,
    /// Every line that is sent; the tally is of this round.
    sent: Round<'c>,
    /// What the lifted lines ask besides.
    more: Round<'c>,
}

impl<'c> Runs<'c> {
    pub fn new(chains: &'c Chains, options: &'c Lifting) -> Runs<'c> {
        Runs {
            chains,
            options,
            room: Room::new(),
            several: Round::default(),
            sent: Round::default(),
            more: Round::default(),
        }
    }

    /// Takes a run from the front of what is waiting and sends it through its chains;
    /// empty if nothing is waiting.
    pub fn next<'w>(
        &mut self,
        waiting: &mut impl Iterator<Item = Waiting<'w>>,
        report: &Report,
        tally: &mut Tally,
    ) -> Vec<Ready<'w, 'c>> {
        self.several.clear();
        self.sent.clear();
        self.more.clear();
        let (mut ready, mut blocks) = (Vec::new(), 0);
        while blocks < MOST_BLOCKS {
            let Some(next) = waiting.next() else { break };
            let line = self.read(next, report);
            if let Ready::Line(_, line) = &line {
                let chains = line.through.as_ref().map_or(0, Vec::len);
                blocks += line.bed.rows.len() * chains.max(1);
            }
            ready.push(line);
        }
        let mut lines: Vec<&mut Line> = ready.iter_mut().filter_map(Ready::line).collect();
        self.choose(&mut lines);
        self.send(&mut lines, tally);
        self.ask_more(&mut lines);
        ready
    }

    /// Reads a line. Its candidates are the chains that it may keep bases in; of several
    /// it is asked in which it does. A line with a note that refuses it has none.
    fn read<'w>(&mut self, waiting: Waiting<'w>, report: &Report) -> Ready<'w, 'c> {
        let text = match waiting {
            Waiting::PassedOver(number) => return Ready::PassedOver(number),
            Waiting::Text(text) => text,
        };
        let bed = match text.judged(|bytes| Bed::parse_in(&mut self.room, bytes)) {
            Ok(bed) => bed,
            Err(refusal) => return Ready::Refused(text, refusal),
        };
        let parts = blocks::parts(&bed, self.options);
        let through = match report.refusing_note(&text) {
            Some(note) => Err(Why::Noted(note)),
            None => self.candidates(bed.chrom, &parts),
        };
        let line = Line {
            bed,
            parts,
            through,
        };
        Ready::Line(text, line)
    }

    fn candidates(&mut self, chrom: &[u8], parts: &[Part]) -> Result<Vec<Through<'c>>, Why> {
        let chains = self.chains.candidates(chrom, parts).into_iter();
        let mut candidates: Vec<Through> = chains.map(Through::new).collect();
        match candidates.len() {
            0 => return Err(Why::NoChain(self.chains.near(chrom))),
            1 => (),
            _ => {
                for through in &mut candidates {
                    through.answers = self.several.ask(through.chain, parts);
                }
            }
        }
        Ok(candidates)
    }

    /// Of several candidates, those that a line goes through.
    fn choose(&mut self, lines: &mut [&mut Line<'_, 'c>]) {
        self.several.answer(&mut Tally::default());
        let keeps = |through: &Through| {
            let mut answers = self.several.answers(&through.answers).iter();
            answers.any(|answer| answer.is_ok())
        };
        for line in lines {
            if let Ok(candidates) = &mut line.through {
                line.through = chosen(mem::take(candidates), keeps, self.options.several);
            }
        }
    }

    /// Sends the lines, with the tally of the whole lift. If a part takes it over its
    /// limit, the lines are tallied anew, one by one, and those that don't fit are not sent.
    fn send(&mut self, lines: &mut [&mut Line<'_, 'c>], tally: &mut Tally) {
        for line in lines.iter_mut() {
            for through in line.through.iter_mut().flatten() {
                through.answers = self.sent.ask(through.chain, &line.parts);
            }
        }
        let before = *tally;
        self.sent.answer(tally);
        if !self.sent.is_over() {
            return;
        }
        *tally = before;
        self.sent.answer(&mut Tally::default());
        for line in lines {
            if let Err(refusal) = line.tally_alone(tally) {
                line.through = Err(Why::Refused(refusal));
            }
        }
    }

    /// Asks what else the lifted lines want to know.
    fn ask_more(&mut self, lines: &mut [&mut Line<'_, 'c>]) {
        for line in lines {
            for through in line.through.iter_mut().flatten() {
                let sent = self.sent(&line.parts, through);
                let questions = blocks::questions(&line.bed, &sent, self.options);
                through.more = self.more.ask(through.chain, &questions);
            }
        }
        self.more.answer(&mut Tally::default());
    }

    /// A line's parts as they were sent through a chain in this run.
    pub fn sent<'r>(&'r self, parts: &'r [Part], through: &Through<'r>) -> Sent<'r> {
        Sent {
            chain: through.chain,
            parts,
            answers: self.sent.answers(&through.answers),
            more: self.more.answers(&through.more),
        }
    }
}

#[cfg(test)]
mod tests {
    use super::*;
    use crate::args::{Input, Telling};
    use crate::chains::tests::chains;
    use crate::counts::Counts;
    use crate::input::{Item, Texts};
    use crate::round::is_full;
    use crate::window::Window;
    use tenderchock::Kind;

    /// Holds the lines of a file, and sends them from this tally on: for each line the
    /// number that the tally refuses it by, or 0; the sizes of the runs; and the tally.
    /// A line that is sent has answers of its own.
    fn sent(chain: &str, bed: &str, tally: Tally) -> (Vec<u8>, Vec<usize>, Tally) {
        let mut window = Window::default();
        let mut texts = Texts::new(bed.as_bytes(), Kind::Bed);
        while let Some(item) = texts.next().expect("bytes can be read") {
            if let Item::Text(text) = item {
                window.hold(&text);
            }
        }
        let input = Input {
            path: "a.bed".into(),
            kind: Kind::Bed,
        };
        let (chains, options, mut told) = (chains(chain), Lifting::default(), Vec::new());
        let report = Report::new(&input, Telling::default(), &mut told);
        let (mut runs, mut counts) = (Runs::new(&chains, &options), Counts::new(false));
        counts.tally = tally;
        let (mut numbers, mut sizes, mut waiting) = (Vec::new(), Vec::new(), window.waiting());
        loop {
            let mut ready = runs.next(&mut waiting, &report, &mut counts.tally);
            if ready.is_empty() {
                return (numbers, sizes, counts.tally);
            }
            sizes.push(ready.len());
            let lines = ready.iter_mut().filter_map(Ready::line);
            numbers.extend(lines.map(|line| {
                for through in line.through.iter().flatten() {
                    let mut answers = runs.sent(&line.parts, through).answers.iter();
                    assert!(!answers.any(|answer| answer.is_err_and(|refusal| is_full(&refusal))));
                }
                match line.through {
                    Err(Why::Refused(refusal)) => refusal.number,
                    _ => 0,
                }
            }));
        }
    }

    const WHOLE: &str = "chain 1 t 100 + 0 90 q 90 + 0 90 1\n90\n";

    /// At the tally's limit a line is sent as if it were alone: whole, or not at all.
    #[test]
    fn a_full_tally_refuses_line_by_line() {
        let bed = "t 0 30\nt 0 30\nt 0 10\nt 0 90 n 0 + 0 90 0 2 5,6, 0,84\nt 95 96\nt 95 101\n\
                   t 0 9\nt 0 1\nt 99 100\ns 0 1\n";
        let limit = 9_223_372_036_854_775_807;
        let near = Tally {
            asked: limit - 50,
            kept: limit - 60,
            dropped: 10,
        };
        let (numbers, _, tally) = sent(WHOLE, bed, near);
        assert_eq!(numbers, [0, 5, 0, 5, 0, 0, 0, 5, 5, 0]);
        let full = Tally {
            asked: limit,
            kept: limit - 11,
            dropped: 11,
        };
        assert_eq!(tally, full);
        let (numbers, _, tally) = sent(WHOLE, bed, Tally::default());
        assert_eq!(numbers, [0; 10]);
        assert_eq!((tally.asked, tally.kept, tally.dropped), (93, 91, 2));
    }

    #[test]
    fn a_run_is_bounded_by_its_blocks() {
        let line = "t 0 90 n 0 + 0 90 0 3 1,1,1, 0,50,89\n";
        let (_, sizes, tally) = sent(WHOLE, &line.repeat(4_000), Tally::default());
        let most = MOST_BLOCKS.div_ceil(3);
        assert_eq!(sizes, [most, 4_000 - most]);
        assert_eq!(tally.kept, 12_000);
        // The chains of a line count too.
        let (_, sizes, _) = sent(&WHOLE.repeat(4), &line.repeat(4_000), Tally::default());
        assert_eq!(sizes[0], MOST_BLOCKS.div_ceil(12));
    }
}
