//! Outputs, all or nothing. A file is written beside its place under another name,
//! and takes its place only when everything of the run is written and synced.

use std::fs::{self, File, OpenOptions, Permissions};
use std::io::{self, BufWriter, ErrorKind, Write};
use std::os::unix::fs::{fchown, MetadataExt, OpenOptionsExt, PermissionsExt};
use std::path::{Path, PathBuf};
use std::process;

use crate::outcome::Trouble;
use crate::target::{no_folder, Place, Target};

/// An output that is being written.
pub struct Output {
    /// As it was named.
    path: PathBuf,
    bytes: BufWriter<File>,
    beside: Option<Beside>,
}

/// A file under another name, removed unless it takes its place.
struct Beside {
    temporary: PathBuf,
    folder: PathBuf,
    place: PathBuf,
}

impl Output {
    /// Makes the file beside the target; what is there stays as it is.
    pub fn create(target: Target) -> Result<Output, Trouble> {
        let Target { path, place, .. } = target;
        let (file, beside) = match place {
            Place::Standard(file) => (file, None),
            Place::Direct { append } => {
                let opened = OpenOptions::new().write(true).append(append).open(&path);
                let file = opened.map_err(|error| Trouble::writing(&path, error))?;
                (file, None)
            }
            Place::File { folder, name, old } => {
                let (file, temporary) = temporary(&folder, old.as_deref())
                    .map_err(|error| Trouble::writing(&path, error))?;
                let place = folder.join(name);
                let beside = Beside {
                    temporary,
                    folder,
                    place,
                };
                (file, Some(beside))
            }
        };
        Ok(Output {
            path,
            bytes: BufWriter::with_capacity(1 << 16, file),
            beside,
        })
    }

    /// Whether it is written as it stands, so that nothing can be taken back.
    pub fn is_direct(&self) -> bool {
        self.beside.is_none()
    }

    pub fn put(&mut self, bytes: &[u8]) -> Result<(), Trouble> {
        let written = self.bytes.write_all(bytes);
        written.map_err(|error| Trouble::writing(&self.path, error))
    }

    /// Everything to the disc; what isn't a file has no disc.
    fn settle(&mut self) -> Result<(), Trouble> {
        let settled = self.bytes.flush().and_then(|()| match self.beside {
            Some(_) => self.bytes.get_ref().sync_all(),
            None => Ok(()),
        });
        settled.map_err(|error| Trouble::writing(&self.path, error))
    }

    /// The file takes its place.
    fn place(&mut self) -> Result<(), Trouble> {
        let Some(beside) = self.beside.take() else {
            return Ok(());
        };
        if let Err(error) = fs::rename(&beside.temporary, &beside.place) {
            self.beside = Some(beside);
            return Err(Trouble::writing(&self.path, error));
        }
        // Some folders can't be synced; the file is in its place all the same.
        let _ = File::open(&beside.folder).and_then(|folder| folder.sync_all());
        Ok(())
    }
}

impl Drop for Output {
    fn drop(&mut self) {
        if let Some(beside) = &self.beside {
            let _ = fs::remove_file(&beside.temporary);
        }
    }
}

/// Ends the outputs of a run: first all are settled, then each takes its place.
pub fn commit(outputs: &mut [Output]) -> Result<(), Trouble> {
    outputs.iter_mut().try_for_each(Output::settle)?;
    outputs.iter_mut().try_for_each(Output::place)
}

/// A new file in this folder, with the old one's mode and owner.
fn temporary(folder: &Path, old: Option<&fs::Metadata>) -> io::Result<(File, PathBuf)> {
    let mut options = OpenOptions::new();
    options.write(true).create_new(true);
    if let Some(old) = old {
        options.mode(old.mode() & 0o600);
    }
    let (file, path) = unnamed(folder, &options).map_err(|error| no_folder(folder, &error))?;
    if let Some(old) = old {
        // Only root can keep another owner, and not everyone another group.
        let _ = fchown(&file, None, Some(old.gid()));
        let _ = fchown(&file, Some(old.uid()), None);
        let mode = Permissions::from_mode(old.mode() & 0o777);
        if let Err(error) = file.set_permissions(mode) {
            let _ = fs::remove_file(&path);
            return Err(error);
        }
    }
    Ok((file, path))
}

/// A new file, under a name that nobody has.
pub fn unnamed(folder: &Path, options: &OpenOptions) -> io::Result<(File, PathBuf)> {
    let mut number = 0;
    loop {
        let path = folder.join(format!(".tenderchock-{}-{number}", process::id()));
        match options.open(&path) {
            Err(error) if error.kind() == ErrorKind::AlreadyExists && number < 1000 => number += 1,
            file => return Ok((file?, path)),
        }
    }
}
