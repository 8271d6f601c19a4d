//! What the tests of the command share: runs of it, and folders of their own.

// Each test program uses a part of this.
#![allow(dead_code)]

use std::env;
use std::fs;
use std::io::Write;
use std::path::{Path, PathBuf};
use std::process::{Child, Command, Output, Stdio};

/// The repository.
pub fn root() -> PathBuf {
    Path::new(env!("CARGO_MANIFEST_DIR")).join("..")
}

/// The command; TENDERCHOCK_COMMAND names another build of it.
pub fn program() -> String {
    env::var("TENDERCHOCK_COMMAND").unwrap_or_else(|_| env!("CARGO_BIN_EXE_tenderchock").into())
}

pub fn command(words: &[&str]) -> Command {
    let mut command = Command::new(program());
    command.args(words).current_dir(root());
    command
}

/// What a run wrote to standard output and standard error, and its status.
#[derive(Debug)]
pub struct Ran {
    pub out: String,
    pub errors: String,
    pub status: Option<i32>,
}

impl Ran {
    pub fn of(output: Output) -> Ran {
        let ran = Ran {
            out: String::from_utf8_lossy(&output.stdout).into_owned(),
            errors: String::from_utf8_lossy(&output.stderr).into_owned(),
            status: output.status.code(),
        };
        assert!(!ran.errors.contains("panicked"), "{}", ran.errors);
        ran
    }
}

pub fn run(words: &[&str]) -> Ran {
    Ran::of(command(words).output().expect("the command runs"))
}

/// The command with a pipe at each end.
pub fn piped(words: &[&str]) -> Child {
    command(words)
        .stdin(Stdio::piped())
        .stdout(Stdio::piped())
        .stderr(Stdio::piped())
        .spawn()
        .expect("the command runs")
}

/// A run with this on standard input.
pub fn run_on(words: &[&str], input: &[u8]) -> Ran {
    let mut child = piped(words);
    // The command may end before it has read all.
    let _ = child.stdin.take().map(|mut stdin| stdin.write_all(input));
    Ran::of(child.wait_with_output().expect("the command ends"))
}

/// An empty folder of this test's own.
pub struct Folder {
    pub path: PathBuf,
}

impl Folder {
    pub fn new(name: &str) -> Folder {
        let path = Path::new(env!("CARGO_TARGET_TMPDIR")).join(name);
        let _ = fs::remove_dir_all(&path);
        fs::create_dir_all(&path).expect("a folder can be made");
        Folder { path }
    }

    pub fn file(&self, name: &str) -> String {
        let path = self.path.join(name);
        path.to_str().expect("a plain path").to_string()
    }

    pub fn write(&self, name: &str, bytes: impl AsRef<[u8]>) {
        fs::write(self.path.join(name), bytes).expect("a file can be written");
    }

    pub fn read(&self, name: &str) -> String {
        fs::read_to_string(self.path.join(name)).expect("a file can be read")
    }

    pub fn has(&self, name: &str) -> bool {
        self.path.join(name).symlink_metadata().is_ok()
    }

    /// A shell script in the folder: $T is the command, $E the examples.
    pub fn sh(&self, script: &str) -> Ran {
        Ran::of(self.shell(script).output().expect("a shell runs"))
    }

    pub fn shell(&self, script: &str) -> Command {
        let mut shell = Command::new("sh");
        shell
            .args(["-c", script])
            .current_dir(&self.path)
            .env("T", program())
            .env("E", root().join("examples"));
        shell
    }

    /// The names in the folder, in order.
    pub fn names(&self) -> Vec<String> {
        let entries = fs::read_dir(&self.path).expect("the folder is there");
        let name = |entry: std::io::Result<fs::DirEntry>| {
            let entry = entry.expect("a name can be read");
            entry.file_name().to_string_lossy().into_owned()
        };
        let mut names: Vec<String> = entries.map(name).collect();
        names.sort();
        names
    }

    /// That no temporary is left.
    pub fn is_clean(&self) -> bool {
        !self
            .names()
            .iter()
            .any(|name| name.starts_with(".tenderchock"))
    }
}

/// Numbers from a seed.
pub struct Dice(pub u64);

impl Dice {
    /// From `least` up to and with `most`.
    pub fn roll(&mut self, least: u64, most: u64) -> u64 {
        self.0 = self
            .0
            .wrapping_mul(6_364_136_223_846_793_005)
            .wrapping_add(1_442_695_040_888_963_407);
        least + (self.0 >> 33) % (most - least + 1)
    }
}
