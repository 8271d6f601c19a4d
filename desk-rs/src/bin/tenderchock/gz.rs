//! Compressed files, read through a child `gzip -dc`.

use std::fs::File;
use std::io::{self, ErrorKind, Read, Seek, Write};
use std::process::{Child, ChildStdin, ChildStdout, Command, Stdio};
use std::thread::{self, JoinHandle};

/// Whether a file that begins with these bytes is compressed.
pub fn begins(first: &[u8]) -> bool {
    first.starts_with(b"\x1F\x8B")
}

/// What gzip makes of a file.
pub struct Unpacked {
    child: Child,
    out: ChildStdout,
    feeder: Option<JoinHandle<io::Result<()>>>,
    ended: bool,
}

/// Unpacks a file of which `first` is read already. One that can be read again
/// from its start is handed to gzip; what is left of any other is fed to it.
pub fn unpack(mut file: File, first: Vec<u8>, again: bool) -> io::Result<Unpacked> {
    let input = match again {
        true => {
            file.rewind()?;
            Stdio::from(file.try_clone()?)
        }
        false => Stdio::piped(),
    };
    let mut child = Command::new("gzip")
        .arg("-dc")
        .env_remove("GZIP")
        .stdin(input)
        .stdout(Stdio::piped())
        .stderr(Stdio::piped())
        .spawn()
        .map_err(|error| failed(&format!("gzip can't be run: {error}")))?;
    let stdin = child.stdin.take();
    let feeder = stdin.map(|stdin| thread::spawn(move || feed(stdin, &first, file)));
    match child.stdout.take() {
        Some(out) => Ok(Unpacked {
            child,
            out,
            feeder,
            ended: false,
        }),
        None => Err(failed("gzip has no output")),
    }
}

/// Sends a file to gzip. If gzip is gone, its status says why.
fn feed(mut stdin: ChildStdin, first: &[u8], mut file: File) -> io::Result<()> {
    let fed = stdin
        .write_all(first)
        .and_then(|()| io::copy(&mut file, &mut stdin));
    match fed {
        Err(error) if error.kind() != ErrorKind::BrokenPipe => Err(error),
        _ => Ok(()),
    }
}

impl Unpacked {
    /// At the end: whether the file was fed whole, and gzip found it whole.
    fn end(&mut self) -> io::Result<()> {
        self.ended = true;
        let mut told = String::new();
        if let Some(errors) = self.child.stderr.take() {
            // What can't be read is only the reason's wording.
            let _ = errors.take(4096).read_to_string(&mut told);
        }
        // A feeder may wait for more of a file that gzip has given up.
        if !self.child.wait()?.success() {
            let why = told.lines().find(|line| !line.is_empty());
            return Err(failed(why.unwrap_or("gzip failed")));
        }
        match self.feeder.take().map(JoinHandle::join) {
            Some(Ok(fed)) => fed,
            _ => Ok(()),
        }
    }
}

fn failed(why: &str) -> io::Error {
    io::Error::other(format!("it is compressed and can't be unpacked: {why}"))
}

impl Read for Unpacked {
    fn read(&mut self, bytes: &mut [u8]) -> io::Result<usize> {
        if self.ended || bytes.is_empty() {
            return Ok(0);
        }
        let count = self.out.read(bytes)?;
        if count == 0 {
            self.end()?;
        }
        Ok(count)
    }
}

impl Drop for Unpacked {
    fn drop(&mut self) {
        if !self.ended {
            let _ = self.child.kill();
            let _ = self.child.wait();
        }
    }
}
