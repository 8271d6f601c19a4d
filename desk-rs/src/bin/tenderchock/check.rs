//! `tenderchock check`: every refusal on standard output.

use std::io::{BufWriter, Write};

use crate::args::{Input, Telling};
use crate::explain::ROW_HEADING;
use crate::outcome::{Outcome, Status};
use crate::report::{self, Report};
use crate::same_file::{none_is_standard_error, none_is_standard_output, standard_output};
use crate::source::Source;

pub fn run(inputs: &[Input], how: Telling) -> Outcome {
    none_is_standard_error(inputs)?;
    none_is_standard_output(inputs)?;
    let mut out = BufWriter::new(standard_output()?);
    if how.tsv {
        writeln!(out, "{ROW_HEADING}")?;
    }
    let mut status = Status::Accepted;
    for input in inputs {
        let source = Source::open(input);
        let mut report = Report::new(input, how, &mut out);
        let checked = report::file(input, source, &mut report, |report, text| {
            match text.judged(|bytes| tenderchock::check(input.kind, bytes)) {
                Ok(_) => report.accept(text).map(drop)?,
                Err(refusal) => report.refuse(text, refusal)?,
            }
            Ok(())
        });
        drop(report);
        status = status.max(checked?);
        out.flush()?;
    }
    Ok(status)
}
