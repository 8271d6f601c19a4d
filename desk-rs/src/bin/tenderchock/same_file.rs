//! One file, one use: files are told apart by device and inode, whatever their names.

use std::ffi::{OsStr, OsString};
use std::fs::{self, File, Metadata};
use std::io;
use std::os::fd::AsFd;
use std::os::unix::fs::{FileTypeExt, MetadataExt};
use std::path::Path;

use crate::args::Input;
use crate::outcome::Trouble;

/// What tells a file from every other.
#[derive(Clone, Debug, PartialEq, Eq)]
pub enum Identity {
    /// Device and inode.
    There(u64, u64),
    /// Not there yet: device and inode of its folder, and its name.
    New(u64, u64, OsString),
    /// A terminal, /dev/null or a socket: it can be used twice.
    Shared,
}

impl Identity {
    pub fn of(known: &Metadata) -> Identity {
        let kind = known.file_type();
        match kind.is_char_device() || kind.is_socket() {
            true => Identity::Shared,
            false => Identity::There(known.dev(), known.ino()),
        }
    }

    pub fn of_new(folder: &Path, name: &OsStr) -> io::Result<Identity> {
        let known = fs::metadata(folder)?;
        Ok(Identity::New(known.dev(), known.ino(), name.to_owned()))
    }

    /// An input's; the path `-` is standard input.
    fn of_input(input: &Input) -> io::Result<Identity> {
        let known = match input.is_standard() {
            true => standard_input()?.metadata()?,
            false => fs::metadata(&input.path)?,
        };
        Ok(Identity::of(&known))
    }

    pub fn of_standard_output() -> io::Result<Identity> {
        Ok(Identity::of(&standard_output()?.metadata()?))
    }

    fn of_standard_error() -> io::Result<Identity> {
        let file = File::from(io::stderr().as_fd().try_clone_to_owned()?);
        Ok(Identity::of(&file.metadata()?))
    }

    pub fn is(&self, other: &Identity) -> bool {
        self == other && *self != Identity::Shared
    }
}

/// Standard input as a file.
pub fn standard_input() -> io::Result<File> {
    Ok(File::from(io::stdin().as_fd().try_clone_to_owned()?))
}

/// Standard output as a file: written where it stands, or at the end if it appends.
pub fn standard_output() -> io::Result<File> {
    Ok(File::from(io::stdout().as_fd().try_clone_to_owned()?))
}

/// A file and what it is used for.
pub struct Use {
    /// Such as `IN (a.bed)`.
    name: String,
    identity: Identity,
}

impl Use {
    pub fn new(role: &str, path: &Path, identity: &Identity) -> Use {
        Use {
            name: format!("{role} ({})", path.display()),
            identity: identity.clone(),
        }
    }

    pub fn standard_output() -> io::Result<Use> {
        Ok(Use {
            name: "standard output".to_string(),
            identity: Identity::of_standard_output()?,
        })
    }

    pub fn is(&self, identity: &Identity) -> bool {
        self.identity.is(identity)
    }
}

/// Tells the first two uses of one file.
pub fn apart(uses: &[Use]) -> Result<(), Trouble> {
    for (at, right) in uses.iter().enumerate() {
        let same = |left: &&Use| left.identity.is(&right.identity);
        if let Some(left) = uses[..at].iter().find(same) {
            return Err(Trouble::OneFile(left.name.clone(), right.name.clone()));
        }
    }
    Ok(())
}

/// Tells an input that standard output goes to, before anything is written there.
pub fn none_is_standard_output(inputs: &[Input]) -> Result<(), Trouble> {
    let standard = Identity::of_standard_output()?;
    match found(inputs, &standard) {
        Some(input) => {
            let used = Use::new("the input", &input.path, &standard);
            apart(&[used, Use::standard_output()?])
        }
        None => Ok(()),
    }
}

/// Ends a run whose messages would go into an input.
pub fn none_is_standard_error(inputs: &[Input]) -> Result<(), Trouble> {
    match found(inputs, &Identity::of_standard_error()?) {
        Some(_) => Err(Trouble::Speechless),
        None => Ok(()),
    }
}

/// The input that is this file. One that can't be looked at is told when it is opened.
fn found<'i>(inputs: &'i [Input], identity: &Identity) -> Option<&'i Input> {
    let is = |input: &&Input| Identity::of_input(input).is_ok_and(|of| of.is(identity));
    inputs.iter().find(is)
}
