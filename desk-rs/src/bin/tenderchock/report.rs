//! What is told of a file: refusals, notes, a summary, and progress at a terminal.

use std::io::{self, BufRead, Write};

use crate::args::{Input, Telling};
use crate::explain::{self, Told};
use crate::flood::{Flood, Sort};
use crate::input::{Item, Texts};
use crate::notes;
use crate::outcome::{Outcome, Status, Trouble};
use crate::progress::Progress;
use crate::source::Source;
use crate::text::Text;
use tenderchock::{Kind, Refusal};

/// The report on one file.
pub struct Report<'w> {
    out: &'w mut dyn Write,
    file: String,
    kind: Kind,
    how: Telling,
    pub accepted: u64,
    pub refused: u64,
    notes: u64,
    flood: Flood,
    progress: Progress,
}

/// Whether a text that the library accepts is taken.
pub enum Verdict {
    Taken,
    /// A note counts as a refusal.
    Noted,
}

impl<'w> Report<'w> {
    pub fn new(input: &Input, how: Telling, out: &'w mut dyn Write) -> Report<'w> {
        Report {
            out,
            file: input.name(),
            kind: input.kind,
            how,
            accepted: 0,
            refused: 0,
            notes: 0,
            flood: Flood::new(how.all || how.tsv),
            progress: Progress::new(how.quiet),
        }
    }

    /// Counts a text that the library accepts, and notes what looks odd.
    pub fn accept(&mut self, text: &Text) -> io::Result<Verdict> {
        let notes = notes::of_text(self.kind, text.bytes);
        for note in &notes {
            let (line, column) = text.locate(note.place);
            self.note(line, column, &note.told)?;
        }
        if self.how.strict && !notes.is_empty() {
            self.refused += 1;
            return Ok(Verdict::Noted);
        }
        self.accepted += 1;
        Ok(Verdict::Taken)
    }

    /// A note on a line.
    pub fn note(&mut self, line: u64, column: usize, told: &str) -> io::Result<()> {
        self.notes += 1;
        if self.how.quiet || !self.flood.tells(Sort::Note, line) {
            return Ok(());
        }
        let file = &self.file;
        let told = match self.how.tsv {
            true => explain::row(file, line, column, 0, ["note", told, ""]),
            false => format!("{file}:{line}:{column}: note: {told}"),
        };
        self.tell(&told)
    }

    /// Tells and counts a text that is refused.
    pub fn refuse(&mut self, text: &Text, refusal: Refusal) -> io::Result<()> {
        self.refused += 1;
        let (line, _) = text.locate(refusal.place);
        if !self.flood.tells(Sort::Number(refusal.number), line) {
            return Ok(());
        }
        let told = Told::new(self.kind, text, refusal);
        match self.how.tsv {
            true => self.tell(&told.row(&self.file)),
            false => self.tell(&told.sentence(&self.file)),
        }
    }

    /// Tells and counts a text that is refused for what the file holds besides it.
    pub fn refuse_among(&mut self, text: &Text, told: &str) -> io::Result<()> {
        self.refused += 1;
        let (line, column) = text.locate(0);
        if !self.flood.tells(Sort::Among, line) {
            return Ok(());
        }
        let told = format!("{}:{line}:{column}: refused: {told}", self.file);
        self.tell(&told)
    }

    /// A note on a line passed over that may be a record.
    pub fn note_passed_over(&mut self, line: u64) -> io::Result<()> {
        self.refused += u64::from(self.how.strict);
        self.note(line, 1, "passed over; is it a record behind a `#`?")
    }

    /// Whether a note counts as a refusal.
    pub fn is_strict(&self) -> bool {
        self.how.strict
    }

    /// The note that an accepted text is refused for, before anything is told of it.
    pub fn refusing_note(&self, text: &Text) -> Option<String> {
        let notes = || notes::of_text(self.kind, text.bytes);
        let first = self.how.strict.then(notes)?.into_iter().next();
        first.map(|note| note.told)
    }

    /// What is told so far goes out.
    pub fn flush(&mut self) -> io::Result<()> {
        self.out.flush()
    }

    /// What was not told, and the counts.
    pub fn summary(&mut self, passed_over: u64, foreign: bool) -> io::Result<()> {
        for rest in self.flood.rest(&self.file) {
            self.tell(&rest)?;
        }
        if self.how.quiet || self.how.tsv {
            return Ok(());
        }
        let mut told = format!(
            "{}: {} {} accepted, {} refused",
            self.file,
            self.accepted,
            texts_named(self.kind, self.accepted),
            self.refused
        );
        if foreign {
            told += "; it is no plain text, and nothing more of it is read";
        }
        if passed_over > 0 {
            told += &format!(", {passed_over} passed over (#, track or browser)");
        }
        if self.notes > 0 {
            told += &format!(", {} to look at (note)", self.notes);
        }
        self.tell(&told)
    }

    /// A line that no quiet run needs.
    pub fn sum_up(&mut self, told: &str) -> io::Result<()> {
        match self.how.quiet {
            true => Ok(()),
            false => self.tell(told),
        }
    }

    /// One line of the report.
    fn tell(&mut self, told: &str) -> io::Result<()> {
        self.progress.clear();
        self.out.write_all(told.as_bytes())?;
        self.out.write_all(b"\n")
    }
}

fn texts_named(kind: Kind, count: u64) -> &'static str {
    match (kind, count) {
        (Kind::Bed, 1) => "BED line",
        (Kind::Bed, _) => "BED lines",
        (Kind::Psl, 1) => "PSL line",
        (Kind::Psl, _) => "PSL lines",
        (Kind::Chain, 1) => "chain",
        (Kind::Chain, _) => "chains",
    }
}

/// The texts of one file of several: one that can't be read is told, and keeps nobody
/// waiting.
pub fn file(
    input: &Input,
    source: Result<Source, Trouble>,
    report: &mut Report,
    each: impl FnMut(&mut Report, &Text) -> Result<(), Trouble>,
) -> Outcome {
    let walked = source.and_then(|source| {
        let texts = Texts::of(source, input.kind);
        let mut texts = texts.map_err(|error| Trouble::Input(input.name(), error))?;
        walk(input, &mut texts, report, each)
    });
    match walked {
        Err(trouble) if trouble.is_of_input() => {
            report.progress.clear();
            report.flush()?;
            trouble.tell();
            Ok(Status::Trouble)
        }
        outcome => outcome,
    }
}

/// Sends each text of a file to `each`, which accepts or refuses it; then sums up.
pub fn walk<R: BufRead>(
    input: &Input,
    texts: &mut Texts<R>,
    report: &mut Report,
    mut each: impl FnMut(&mut Report, &Text) -> Result<(), Trouble>,
) -> Outcome {
    read(input, texts, report, |report, item| match item {
        Item::Text(text) => each(report, &text),
        Item::PassedOver(passed) if passed.noted => Ok(report.note_passed_over(passed.number)?),
        Item::PassedOver(_) => Ok(()),
    })?;
    report.summary(texts.passed_over, texts.foreign)?;
    Ok(Status::of_refused(report.refused))
}

/// Sends each text of a file, and each line that is passed over, to `each`.
pub fn read<R: BufRead>(
    input: &Input,
    texts: &mut Texts<R>,
    report: &mut Report,
    mut each: impl FnMut(&mut Report, Item) -> Result<(), Trouble>,
) -> Result<(), Trouble> {
    loop {
        let next = texts.next();
        let Some(item) = next.map_err(|error| Trouble::Input(input.name(), error))? else {
            return Ok(());
        };
        each(report, item)?;
        report.progress.show(&report.file, texts.lines);
    }
}
