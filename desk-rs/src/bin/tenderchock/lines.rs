//! The lines of a lift: each goes to OUT lifted, or to UNMAPPED as it stands after a
//! line that says why.

use crate::args::Lifting;
use crate::blocks::{self, Lifted};
use crate::counts::{Bases, Counts, Ended};
use crate::lift::Outputs;
use crate::outcome::Trouble;
use crate::ratio::Ratio;
use crate::ready::{Line, Ready, Sent};
use crate::report::Report;
use crate::run::Runs;
use crate::text::Text;
use crate::why::Why;
use tenderchock::{Bed, Refusal, Room, TEXT_LIMIT};

pub struct Lines<'r> {
    pub outputs: Outputs,
    options: &'r Lifting,
    pub counts: Counts,
    room: Room,
}

impl<'r> Lines<'r> {
    pub fn new(outputs: Outputs, options: &'r Lifting) -> Lines<'r> {
        Lines {
            counts: Counts::new(outputs.has_summary()),
            outputs,
            options,
            room: Room::new(),
        }
    }

    /// A line whose turn has come; the answers for it are those of this run.
    pub fn tell(&mut self, report: &mut Report, line: &Ready, run: &Runs) -> Result<(), Trouble> {
        match line {
            Ready::PassedOver(number) => report.note_passed_over(*number)?,
            Ready::Refused(text, refusal) => {
                report.refuse(text, *refusal)?;
                // A file without a text has no line to put anywhere.
                if !text.is_empty() {
                    self.put_refused(text, *refusal)?;
                    self.counts.add(b"", &Ended::refused());
                }
            }
            Ready::Line(text, line) => {
                report.accept(text)?;
                let ended = self.line(report, text, line, run)?;
                self.counts.add(line.bed.chrom, &ended);
            }
        }
        Ok(())
    }

    fn line(
        &mut self,
        report: &mut Report,
        text: &Text,
        line: &Line,
        run: &Runs,
    ) -> Result<Ended, Trouble> {
        let bed = &line.bed;
        let sent: Vec<Sent> = match &line.through {
            Ok(chains) => chains
                .iter()
                .map(|one| run.sent(&line.parts, one))
                .collect(),
            Err(why) => return self.unmapped(bed, text, why, Bases::not_sent(&line.parts)),
        };
        let bases = Bases::of(&sent);
        let came = Came::of(bed, &sent, self.options, &mut self.room);
        let notes = came.notes(bed.chrom);
        match (came.not.first(), notes.first()) {
            (Some((_, why)), _) if came.lines.is_empty() => {
                self.counts.near += u64::from(self.is_near(bed, &sent));
                self.unmapped(bed, text, why, bases)
            }
            (_, Some(note)) if report.is_strict() => {
                self.unmapped(bed, text, &Why::Noted(note.clone()), bases)
            }
            _ => {
                let (number, _) = text.locate(0);
                for note in &notes {
                    report.note(number, 1, note)?;
                }
                self.put_lifted(report, number, bed, &came.lines)?;
                let unmapped = None;
                Ok(Ended { unmapped, bases })
            }
        }
    }

    /// Whether a line that isn't lifted would be if it had to keep liftOver's share.
    fn is_near(&mut self, bed: &Bed, sent: &[Sent]) -> bool {
        let options = Lifting {
            min_kept: Ratio::OF_LIFTOVER,
            ..*self.options
        };
        let room = &mut self.room;
        sent.iter()
            .any(|sent| blocks::lifted(bed, sent, &options, room).is_ok())
    }

    /// What a line of IN is lifted to.
    fn put_lifted(
        &mut self,
        report: &mut Report,
        number: u64,
        bed: &Bed,
        lines: &[Lifted],
    ) -> Result<(), Trouble> {
        for lifted in lines {
            self.outputs.out.put(&lifted.line)?;
            for without in &lifted.without {
                report.note(number, 1, &format!("lifted without {without}"))?;
                let told = format!("# line {number} is lifted without {without}\n");
                self.outputs.unmapped.put(told.as_bytes())?;
            }
        }
        let any = |is: fn(&Lifted) -> bool| u64::from(lines.iter().any(is));
        self.counts.shortened += any(|lifted| lifted.shortened);
        self.counts.block_lost += any(|lifted| !lifted.without.is_empty());
        self.counts.narrowed += u64::from(self.options.span && bed.word_count > 6);
        Ok(())
    }

    fn unmapped(
        &mut self,
        bed: &Bed,
        text: &Text,
        why: &Why,
        bases: Bases,
    ) -> Result<Ended, Trouble> {
        self.put_unmapped(&why.told(bed.chrom), text.bytes)?;
        let unmapped = Some(why.reason());
        Ok(Ended { unmapped, bases })
    }

    /// A line that is refused before it is sent. One over the text limit is cut.
    fn put_refused(&mut self, text: &Text, refusal: Refusal) -> Result<(), Trouble> {
        let cut = match text.bytes.len() > TEXT_LIMIT {
            true => "; the line is cut here",
            false => "",
        };
        let (number, (_, column)) = (refusal.number, text.locate(refusal.place));
        let meaning = refusal.meaning();
        let told = format!("refused by {number} at column {column}: {meaning}{cut}");
        self.put_unmapped(&told, text.bytes)
    }

    fn put_unmapped(&mut self, told: &str, line: &[u8]) -> Result<(), Trouble> {
        let unmapped = &mut self.outputs.unmapped;
        unmapped.put(format!("# {told}\n").as_bytes())?;
        unmapped.put(line)?;
        unmapped.put(b"\n")
    }
}

/// What a line came to in its chains: the lifted lines, and where it isn't lifted.
#[derive(Default)]
struct Came<'s> {
    lines: Vec<Lifted>,
    not: Vec<(&'s Sent<'s>, Why)>,
}

impl<'s> Came<'s> {
    fn of(bed: &Bed, sent: &'s [Sent<'s>], options: &Lifting, room: &mut Room) -> Came<'s> {
        let mut came = Came::default();
        for sent in sent {
            match blocks::lifted(bed, sent, options, room) {
                Ok(lifted) => came.lines.push(lifted),
                Err(why) => came.not.push((sent, why)),
            }
        }
        came
    }

    /// The notes on a line that is lifted; blocks left out are told elsewhere.
    fn notes(&self, chrom: &[u8]) -> Vec<String> {
        let not = self.not.iter().map(|(sent, why)| {
            let (id, told) = (sent.chain.id, why.told(chrom));
            format!("not lifted through the chain with the id {id}: {told}")
        });
        let moved = self.lines.iter().flat_map(|lifted| &lifted.moved);
        not.chain(moved.cloned()).collect()
    }
}
