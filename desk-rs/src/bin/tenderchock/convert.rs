//! `tenderchock convert`: start and end on the other strand.

use std::io::{self, Write};

use crate::outcome::{self, Outcome, Status};

pub fn run(start: u64, end: u64, size: u64) -> Outcome {
    match tenderchock::convert(start, end, size) {
        Ok((start, end)) => {
            io::stdout().write_all(format!("{start}\t{end}\n").as_bytes())?;
            Ok(Status::Accepted)
        }
        Err(refusal) => {
            let number = refusal.number;
            outcome::say(&format!("refused by {number}: {}", refusal.meaning()));
            Ok(Status::Refused)
        }
    }
}
