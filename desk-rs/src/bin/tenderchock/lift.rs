//! `tenderchock lift`: BED lines through the chains of a file, to OUT or UNMAPPED.

use std::io::{self, BufWriter, Write};
use std::path::Path;

use crate::args::{Input, LiftFiles, Lifting, Telling};
use crate::chains::Chains;
use crate::input::{SourceTexts, Texts};
use crate::lifter::Lifter;
use crate::lines::Lines;
use crate::outcome::{self, Outcome, Status, Trouble};
use crate::output::{commit, Output};
use crate::report::{self, Report};
use crate::same_file::{apart, none_is_standard_error, Use};
use crate::source::Source;
use crate::target::Target;

pub fn run(files: &LiftFiles, options: &Lifting, how: Telling) -> Outcome {
    none_is_standard_error(&[files.chain.clone(), files.bed.clone()])?;
    let chain = Source::open(&files.chain)?;
    let bed = Source::open(&files.bed)?;
    let outputs = Outputs::create(files, &chain, &bed)?;
    let mut errors = BufWriter::new(io::stderr());
    let mut texts = texts(&files.chain, chain)?;
    let mut report = Report::new(&files.chain, how, &mut errors);
    let (chains, status) = Chains::read(&files.chain, &mut texts, &mut report)?;
    drop(report);
    errors.flush()?;
    if status != Status::Accepted {
        outcome::say("a chain is refused, so nothing is lifted");
        return Ok(status);
    }
    let texts = self::texts(&files.bed, bed)?;
    let lifter = Lifter::new(&chains, outputs, options);
    let mut report = Report::new(&files.bed, how, &mut errors);
    let status = lift(files, lifter, texts, &mut report)?;
    drop(report);
    errors.flush()?;
    Ok(status)
}

fn texts(input: &Input, source: Source) -> Result<SourceTexts, Trouble> {
    Texts::of(source, input.kind).map_err(|error| Trouble::Input(input.name(), error))
}

/// Lifts a file; then the outputs take their places.
fn lift(
    files: &LiftFiles,
    mut lifter: Lifter,
    mut texts: SourceTexts,
    report: &mut Report,
) -> Outcome {
    let read = report::read(&files.bed, &mut texts, report, |report, item| {
        lifter.item(report, item)
    });
    match read {
        Err(trouble) if !trouble.is_of_input() => return Err(trouble),
        // What was read is told, whatever came behind it.
        _ => lifter.work_off(report)?,
    }
    read?;
    report.summary(texts.passed_over, texts.foreign)?;
    if texts.foreign {
        report.sum_up("nothing is lifted")?;
        return Ok(Status::Refused);
    }
    let Lines {
        counts,
        mut outputs,
        ..
    } = lifter.lines;
    counts.balanced(texts.lines, texts.passed_over)?;
    if let Some(summary) = &mut outputs.summary {
        summary.put(counts.table().as_bytes())?;
    }
    report.flush()?;
    outputs.commit()?;
    for told in counts.summed_up(files, texts.lines, texts.passed_over) {
        report.sum_up(&told)?;
    }
    let bad = counts.unmapped + counts.block_lost + report.refused;
    Ok(Status::of_refused(bad))
}

/// The files that are written.
pub struct Outputs {
    pub out: Output,
    pub unmapped: Output,
    summary: Option<Output>,
}

impl Outputs {
    /// Every file has one use, or none is made.
    fn create(files: &LiftFiles, chain: &Source, bed: &Source) -> Result<Outputs, Trouble> {
        let out = Target::find(&files.out)?;
        let unmapped = Target::find(&files.unmapped)?;
        let summary = files.summary.as_deref().map(Target::find).transpose()?;
        let written =
            |role: &str, path: &Path, target: &Target| Use::new(role, path, &target.identity);
        let mut uses = vec![
            chain.used("CHAIN", &files.chain),
            bed.used("IN", &files.bed),
            written("OUT", &files.out, &out),
            written("UNMAPPED", &files.unmapped, &unmapped),
        ];
        uses.extend(
            summary
                .iter()
                .map(|target| written("--summary", &target.path, target)),
        );
        let standard = Use::standard_output()?;
        if !standard.is(&out.identity) {
            uses.push(standard);
        }
        apart(&uses)?;
        Ok(Outputs {
            unmapped: Output::create(unmapped)?,
            out: Output::create(out)?,
            summary: summary.map(Output::create).transpose()?,
        })
    }

    pub fn has_summary(&self) -> bool {
        self.summary.is_some()
    }

    /// The summary and UNMAPPED take their places before OUT.
    fn commit(self) -> Result<(), Trouble> {
        let mut outputs: Vec<Output> = self.summary.into_iter().collect();
        outputs.extend([self.unmapped, self.out]);
        commit(&mut outputs)
    }
}
