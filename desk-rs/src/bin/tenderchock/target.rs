//! Where an output path leads: links are followed, and nothing is changed.

use std::ffi::OsString;
use std::fs::{self, File, Metadata, OpenOptions};
use std::io::{self, ErrorKind};
use std::os::unix::ffi::OsStrExt;
use std::path::{Path, PathBuf};

use crate::outcome::Trouble;
use crate::same_file::{standard_output, Identity};

/// Most links that are followed to a file that isn't there, as the system does.
const MOST_LINKS: usize = 40;

/// What is written.
pub struct Target {
    /// As it was named.
    pub path: PathBuf,
    pub identity: Identity,
    pub place: Place,
}

pub enum Place {
    /// Standard output.
    Standard(File),
    /// A device, a pipe or an open descriptor: written as it stands. It is opened
    /// only when all uses are known, since a pipe waits for its reader.
    Direct { append: bool },
    /// A plain file, there or not: its folder and name, and what is known of the old one.
    File {
        folder: PathBuf,
        name: OsString,
        old: Option<Box<Metadata>>,
    },
}

impl Target {
    /// Looks where a path leads; `-` is standard output.
    pub fn find(path: &Path) -> Result<Target, Trouble> {
        let found = match path == Path::new("-") {
            true => standard(),
            false => found(path),
        };
        let (identity, place) = found.map_err(|error| Trouble::writing(path, error))?;
        Ok(Target {
            path: path.to_path_buf(),
            identity,
            place,
        })
    }
}

fn standard() -> io::Result<(Identity, Place)> {
    let file = standard_output()?;
    Ok((Identity::of(&file.metadata()?), Place::Standard(file)))
}

fn found(path: &Path) -> io::Result<(Identity, Place)> {
    let known = match fs::metadata(path) {
        Err(error) if error.kind() == ErrorKind::NotFound => return new(path),
        known => known?,
    };
    let identity = Identity::of(&known);
    if identity.is(&Identity::of_standard_output()?) {
        return standard();
    }
    if known.is_dir() {
        return Err(ErrorKind::IsADirectory.into());
    }
    let append = known.is_file() && is_descriptor(path);
    if append || !known.is_file() {
        return Ok((identity, Place::Direct { append }));
    }
    // A file that may not be written is not replaced either.
    OpenOptions::new().write(true).open(path)?;
    let (folder, name) = parted(&path.canonicalize()?)?;
    let old = Some(Box::new(known));
    Ok((identity, Place::File { folder, name, old }))
}

/// A file that isn't there: links that lead to nothing are followed.
fn new(path: &Path) -> io::Result<(Identity, Place)> {
    let mut path = path.to_path_buf();
    for _ in 0..MOST_LINKS {
        let (folder, name) = parted(&path)?;
        match fs::read_link(&path) {
            Ok(to) => path = folder.join(to),
            Err(_) => {
                let identity =
                    Identity::of_new(&folder, &name).map_err(|error| no_folder(&folder, &error))?;
                let old = None;
                return Ok((identity, Place::File { folder, name, old }));
            }
        }
    }
    Err(io::Error::other("too many links"))
}

/// A path's folder and name.
fn parted(path: &Path) -> io::Result<(PathBuf, OsString)> {
    let spelt = path.as_os_str().as_bytes();
    match (path.parent(), path.file_name()) {
        _ if spelt.ends_with(b"/") || spelt.ends_with(b"/.") => Err(ErrorKind::IsADirectory.into()),
        (Some(folder), Some(name)) if folder == Path::new("") => Ok((".".into(), name.into())),
        (Some(folder), Some(name)) => Ok((folder.into(), name.into())),
        _ => Err(ErrorKind::IsADirectory.into()),
    }
}

/// Whether a path names an open descriptor, as /dev/fd/3 does.
fn is_descriptor(path: &Path) -> bool {
    let mut path = path.to_path_buf();
    for _ in 0..MOST_LINKS {
        let Ok((folder, _)) = parted(&path) else {
            return false;
        };
        if folder
            .canonicalize()
            .is_ok_and(|folder| folder.starts_with("/proc"))
        {
            return true;
        }
        match fs::read_link(&path) {
            Ok(to) => path = folder.join(to),
            Err(_) => return false,
        }
    }
    false
}

pub fn no_folder(folder: &Path, error: &io::Error) -> io::Error {
    io::Error::new(
        error.kind(),
        format!(
            "no file can be made in the folder {}: {error}",
            folder.display()
        ),
    )
}
