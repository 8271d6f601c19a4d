//! The command `tenderchock`: checks, formats, lifts and turns files of BED lines,
//! PSL lines and chains. It parts a file into texts; what is right or wrong in a
//! text is the library's word.

#![forbid(unsafe_code)]

mod args;
mod blocks;
mod chains;
mod check;
mod choice;
mod completion;
mod convert;
mod counts;
mod explain;
mod fields;
mod flood;
mod gz;
mod help;
mod hints;
mod input;
mod lift;
mod lifter;
mod lines;
mod loss;
mod man;
mod notes;
mod options;
mod outcome;
mod output;
mod part;
mod passing;
mod progress;
mod ratio;
mod ready;
mod report;
mod rewrite;
mod round;
mod run;
mod same_file;
mod source;
mod spans;
mod spool;
mod table;
mod target;
mod text;
mod thick;
mod why;
mod window;

use std::env;
use std::ffi::OsString;
use std::io::{self, Write};
use std::process::ExitCode;

use args::Command;
use outcome::{Outcome, Status};
use rewrite::Way;

fn main() -> ExitCode {
    let words: Vec<OsString> = env::args_os().skip(1).collect();
    let status = match args::read(&words) {
        Ok(command) => run(&command),
        Err(message) => {
            outcome::say(&message);
            outcome::say("`tenderchock --help` tells how it is used");
            Status::Trouble
        }
    };
    ExitCode::from(status.number())
}

fn run(command: &Command) -> Status {
    progress::began();
    let outcome = match command {
        Command::Tell(text) => tell(text),
        Command::Check(inputs, how) => check::run(inputs, *how),
        Command::Format(inputs, written, how) => rewrite::run(Way::Format, inputs, written, *how),
        Command::Turn(input, written, how) => {
            rewrite::run(Way::Turn, std::slice::from_ref(input), written, *how)
        }
        Command::Lift(files, lifting, how) => lift::run(files, lifting, *how),
        Command::Convert { start, end, size } => convert::run(*start, *end, *size),
    };
    outcome.unwrap_or_else(|trouble| {
        trouble.tell();
        Status::Trouble
    })
}

fn tell(text: &str) -> Outcome {
    io::stdout().write_all(text.as_bytes())?;
    Ok(Status::Accepted)
}
