//! How a run ends: its exit status, or trouble with a file.

use std::fmt;
use std::io::{self, Write};
use std::path::Path;

/// The exit status; of two, the larger counts.
#[derive(Clone, Copy, Debug, PartialEq, Eq, PartialOrd, Ord)]
pub enum Status {
    /// All was accepted.
    Accepted,
    /// Something was refused.
    Refused,
    /// Bad usage, or a file that can't be read or written.
    Trouble,
}

impl Status {
    pub fn number(self) -> u8 {
        self as u8
    }

    /// Accepted if nothing was refused.
    pub fn of_refused(refused: u64) -> Status {
        match refused {
            0 => Status::Accepted,
            _ => Status::Refused,
        }
    }
}

/// A run's status, or the trouble that ended it.
pub type Outcome = Result<Status, Trouble>;

/// What ends a run.
#[derive(Debug)]
pub enum Trouble {
    /// A file that can't be read.
    Input(String, io::Error),
    /// A file that can't be written.
    Output(String, io::Error),
    /// Standard output or standard error.
    Stream(io::Error),
    /// One file is to be used twice: how it is named in both uses.
    OneFile(String, String),
    /// Lines read, and lines accounted for: a fault of this program.
    Lost(u64, u64),
    /// Standard error goes to an input, so that nothing may be told there.
    Speechless,
}

impl Trouble {
    /// Trouble with a file that is written; `-` is standard output.
    pub fn writing(path: &Path, error: io::Error) -> Trouble {
        match path == Path::new("-") {
            true => Trouble::Stream(error),
            false => Trouble::Output(path.display().to_string(), error),
        }
    }

    /// Whether it is one input's, so that others can still be read.
    pub fn is_of_input(&self) -> bool {
        matches!(self, Trouble::Input(..))
    }

    /// Tells it on standard error; a reader that went away needs no word.
    pub fn tell(&self) {
        let quiet = match self {
            Trouble::Output(_, error) | Trouble::Stream(error) => {
                error.kind() == io::ErrorKind::BrokenPipe
            }
            Trouble::Speechless => true,
            _ => false,
        };
        if !quiet {
            say(&self.to_string());
        }
    }
}

impl fmt::Display for Trouble {
    fn fmt(&self, f: &mut fmt::Formatter<'_>) -> fmt::Result {
        match self {
            Trouble::Input(file, error) | Trouble::Output(file, error) => {
                write!(f, "{file}: {error}")
            }
            Trouble::Stream(error) => write!(f, "standard output: {error}"),
            Trouble::OneFile(left, right) => {
                write!(f, "{left} and {right} are one file; nothing is written")
            }
            Trouble::Lost(read, told) => write!(
                f,
                "{read} lines were read and {told} accounted for: this is a fault of tenderchock; nothing is written"
            ),
            Trouble::Speechless => write!(f, "standard error is an input"),
        }
    }
}

/// Trouble with standard output or standard error.
impl From<io::Error> for Trouble {
    fn from(error: io::Error) -> Trouble {
        Trouble::Stream(error)
    }
}

/// A file that is written, as messages call it.
pub fn named(path: &Path) -> String {
    match path == Path::new("-") {
        true => "standard output".to_string(),
        false => path.display().to_string(),
    }
}

/// A message on standard error. If that is closed, there is nobody to tell.
pub fn say(message: &str) {
    let _ = writeln!(io::stderr(), "tenderchock: {message}");
}
