//! What is held back until a whole file is accepted: in memory while it is little,
//! in a file without a name after that.

use std::env;
use std::fs::{self, File, OpenOptions};
use std::io::{self, Read, Seek, Write};
use std::os::unix::fs::OpenOptionsExt;

use crate::outcome::Trouble;
use crate::output::{unnamed, Output};

/// Most bytes that are held in memory.
const MOST: usize = 1 << 20;

#[derive(Default)]
pub struct Spool {
    memory: Vec<u8>,
    file: Option<File>,
}

impl Spool {
    pub fn put(&mut self, bytes: &[u8]) -> Result<(), Trouble> {
        self.memory.extend_from_slice(bytes);
        match self.memory.len() > MOST {
            true => self.spill().map_err(trouble),
            false => Ok(()),
        }
    }

    /// Everything to the output.
    pub fn pour(mut self, out: &mut Output) -> Result<(), Trouble> {
        if self.file.is_some() {
            self.spill().map_err(trouble)?;
        }
        if let Some(mut file) = self.file {
            file.rewind().map_err(trouble)?;
            let mut part = vec![0; 1 << 16];
            loop {
                match file.read(&mut part).map_err(trouble)? {
                    0 => return Ok(()),
                    count => out.put(&part[..count])?,
                }
            }
        }
        out.put(&self.memory)
    }

    /// What is in memory to the file.
    fn spill(&mut self) -> io::Result<()> {
        let mut file = match self.file.take() {
            Some(file) => file,
            None => nameless()?,
        };
        file.write_all(&self.memory)?;
        self.memory.clear();
        self.file = Some(file);
        Ok(())
    }
}

/// A file for the owner alone whose name is gone: it goes with the run, however that ends.
fn nameless() -> io::Result<File> {
    let mut options = OpenOptions::new();
    options.read(true).write(true).create_new(true).mode(0o600);
    let (file, path) = unnamed(&env::temp_dir(), &options)?;
    fs::remove_file(path)?;
    Ok(file)
}

fn trouble(error: io::Error) -> Trouble {
    let folder = env::temp_dir();
    Trouble::Output(format!("a file in {}", folder.display()), error)
}
