//! `tenderchock format` and `tenderchock turn`: texts in their standard form, to
//! standard output or to a file; what is refused on standard error.

use std::io::{self, BufWriter, Write};
use std::path::Path;

use crate::args::{Input, Rewriting, Telling};
use crate::outcome::{self, Outcome, Status, Trouble};
use crate::output::{commit, Output};
use crate::report::{self, Report, Verdict};
use crate::same_file::{apart, none_is_standard_error, none_is_standard_output, Use};
use crate::source::Source;
use crate::spool::Spool;
use crate::target::Target;
use tenderchock::{Kind, Refusal, Room};

#[derive(Clone, Copy, PartialEq, Eq)]
pub enum Way {
    Format,
    Turn,
}

impl Way {
    fn written<'r>(self, room: &'r mut Room, kind: Kind, text: &[u8]) -> Result<&'r [u8], Refusal> {
        match self {
            Way::Format => room.format(kind, text),
            Way::Turn => room.turn(text),
        }
    }
}

pub fn run(way: Way, inputs: &[Input], options: &Rewriting, how: Telling) -> Outcome {
    none_is_standard_error(inputs)?;
    match &options.out {
        Some(path) => to_file(way, inputs, path, options, how),
        None => to_standard_output(way, inputs, options, how),
    }
}

/// Every input is opened before anything is written.
fn to_file(way: Way, inputs: &[Input], path: &Path, options: &Rewriting, how: Telling) -> Outcome {
    let sources: Result<Vec<Source>, Trouble> = inputs.iter().map(Source::open).collect();
    let (sources, target) = (sources?, Target::find(path)?);
    for (input, source) in inputs.iter().zip(&sources) {
        let used = source.used("the input", input);
        apart(&[used, Use::new("--out", path, &target.identity)])?;
    }
    let mut writer = Writer::new(way, options, Output::create(target)?);
    let mut status = Status::Accepted;
    for (input, source) in inputs.iter().zip(sources) {
        status = status.max(writer.file(input, Ok(source), how)?);
    }
    writer.end(status)
}

/// An input that can't be read is told, and keeps no other waiting.
fn to_standard_output(way: Way, inputs: &[Input], options: &Rewriting, how: Telling) -> Outcome {
    none_is_standard_output(inputs)?;
    let target = Target::find(Path::new("-"))?;
    let mut writer = Writer::new(way, options, Output::create(target)?);
    let mut status = Status::Accepted;
    for input in inputs {
        status = status.max(writer.file(input, Source::open(input), how)?);
    }
    writer.end(status)
}

struct Writer<'o> {
    way: Way,
    options: &'o Rewriting,
    out: Sink,
    room: Room,
    tabbed: Vec<u8>,
}

impl<'o> Writer<'o> {
    fn new(way: Way, options: &'o Rewriting, out: Output) -> Writer<'o> {
        // What isn't a file can't be left unwritten later.
        let all_or_nothing = (options.out.is_some() || way == Way::Turn) && !options.keep_going;
        let spool = (all_or_nothing && out.is_direct()).then(Spool::default);
        Writer {
            way,
            options,
            out: Sink { out, spool },
            room: Room::new(),
            tabbed: Vec::new(),
        }
    }

    fn file(&mut self, input: &Input, source: Result<Source, Trouble>, how: Telling) -> Outcome {
        let mut errors = BufWriter::new(io::stderr());
        let mut report = Report::new(input, how, &mut errors);
        let told = report::file(input, source, &mut report, |report, text| {
            let (way, room) = (self.way, &mut self.room);
            match text.judged(|bytes| way.written(room, input.kind, bytes)) {
                Err(refusal) => report.refuse(text, refusal)?,
                Ok(written) => {
                    if let Verdict::Taken = report.accept(text)? {
                        let written = match self.options.tabs && input.kind == Kind::Chain {
                            true => with_tabs(written, &mut self.tabbed),
                            false => written,
                        };
                        self.out.put(input.kind, written)?;
                    }
                }
            }
            Ok(())
        });
        drop(report);
        errors.flush()?;
        told
    }

    /// The output takes its place, unless something was refused or couldn't be read.
    fn end(self, status: Status) -> Outcome {
        let going = match status {
            Status::Accepted => true,
            Status::Refused => self.options.keep_going,
            Status::Trouble => false,
        };
        match (going || self.out.is_begun(), status) {
            (true, _) => self.out.end()?,
            (false, Status::Trouble) => outcome::say("not all can be read, so nothing is written"),
            (false, _) => outcome::say("something is refused, so nothing is written"),
        }
        Ok(status)
    }
}

/// The output, and what is held back from it until the end.
struct Sink {
    out: Output,
    spool: Option<Spool>,
}

impl Sink {
    /// One text; a blank line ends a chain.
    fn put(&mut self, kind: Kind, text: &[u8]) -> Result<(), Trouble> {
        let end: &[u8] = match kind {
            Kind::Chain => b"\n",
            _ => b"",
        };
        for bytes in [text, end] {
            match &mut self.spool {
                Some(spool) => spool.put(bytes)?,
                None => self.out.put(bytes)?,
            }
        }
        Ok(())
    }

    /// Whether something may have gone where nothing can be taken back.
    fn is_begun(&self) -> bool {
        self.out.is_direct() && self.spool.is_none()
    }

    fn end(mut self) -> Result<(), Trouble> {
        if let Some(spool) = self.spool {
            spool.pour(&mut self.out)?;
        }
        commit(&mut [self.out])
    }
}

/// A chain with tabs in its block lines.
fn with_tabs<'b>(chain: &[u8], tabbed: &'b mut Vec<u8>) -> &'b [u8] {
    let line_end = chain.iter().position(|byte| *byte == b'\n');
    tabbed.clear();
    tabbed.extend_from_slice(chain);
    let blocks = tabbed.iter_mut().skip(line_end.unwrap_or(chain.len()));
    for byte in blocks.filter(|byte| **byte == b' ') {
        *byte = b'\t';
    }
    tabbed
}
