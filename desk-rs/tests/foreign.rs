//! The entries called from C, by the header, and from Python: the archive of this build, a C compiler and Python. What
//! isn't on this machine is left out, with a message; TENDERCHOCK_FOREIGN=1 wants all of it.

mod common;

use std::env;
use std::fs;
use std::io::{self, Write};
use std::process::Command;

use common::{root, Folder};

/// The archive that this build links.
const ARCHIVE: &str = env!("TENDERCHOCK_ARCHIVE");
/// What both examples print.
const LIFTED: &str = "4 kept, 3 dropped, 63 to 67\n";

/// Whether a program is there.
fn has(program: &str) -> bool {
    let there = Command::new(program).arg("--version").output().is_ok();
    if !there {
        let wanted = env::var_os("TENDERCHOCK_FOREIGN").is_some_and(|value| value == "1");
        assert!(!wanted, "there is no `{program}`");
        // Not by a macro: what a test prints with one is not shown if it ends well.
        let _ = writeln!(io::stderr(), "left out: there is no `{program}`");
    }
    there
}

/// Standard output of a program that ends well.
fn ran(command: &mut Command) -> String {
    let output = command.output().expect("the program runs");
    let errors = String::from_utf8_lossy(&output.stderr);
    let out = String::from_utf8_lossy(&output.stdout);
    assert!(output.status.success(), "{command:?}: {out}{errors}");
    out.into_owned()
}

fn cc() -> Command {
    let mut cc = Command::new("cc");
    cc.current_dir(root());
    cc
}

/// What a C program prints, compiled by the header with every warning as an error.
fn compiled_and_run(source: &str) -> Vec<String> {
    let folder = Folder::new(&format!("foreign-{}", source.replace('/', "-")));
    let with = |standard: &str| {
        let program = folder.file(standard);
        let made = ran(cc()
            .args([standard, "-pedantic", "-Wall", "-Wextra", "-Werror"])
            .args(["-I", "desk-rs/include", "-o", &program, source, ARCHIVE]));
        assert_eq!(made, "");
        ran(&mut Command::new(program))
    };
    ["-std=c99", "-std=c11"].map(with).to_vec()
}

#[test]
fn every_entry_can_be_called_by_the_header() {
    if has("cc") {
        assert_eq!(compiled_and_run("desk-rs/tests/entries.c"), ["", ""]);
    }
}

/// Where there is a compiler for C++, it takes the header too.
#[test]
fn the_header_is_also_cpp() {
    if let Ok(output) = Command::new("c++")
        .args(["-pedantic", "-Wall", "-Wextra", "-Werror", "-fsyntax-only"])
        .args(["-x", "c++", "desk-rs/include/tenderchock.h"])
        .current_dir(root())
        .output()
    {
        let errors = String::from_utf8_lossy(&output.stderr);
        assert!(output.status.success(), "{errors}");
    }
}

#[test]
fn the_example_in_c_lifts() {
    if has("cc") {
        assert_eq!(compiled_and_run("examples/lift.c"), [LIFTED, LIFTED]);
    }
}

/// The header, the module and the bindings of this package declare the entries of docs/DESK.md and no others, and tell
/// the refusals in the same words.
#[test]
fn all_declare_the_same() {
    let read = |name: &str| fs::read_to_string(root().join(name)).expect("a file can be read");
    let header = read("desk-rs/include/tenderchock.h");
    let module = read("python/tenderchock.py");
    let entries = |text: &str, before: &str, after: &str| -> Vec<String> {
        let from = text.match_indices(before);
        let word = from.filter_map(|(at, _)| text[at + before.len()..].split_once(after));
        let mut names: Vec<String> = word.map(|(name, _)| name.to_string()).collect();
        names.sort();
        names.dedup();
        names
    };
    let told = entries(&read("docs/DESK.md"), "\n- `tenderchock_", "(");
    assert_eq!(told.len(), 10);
    assert_eq!(entries(&header, "\nuint64_t tenderchock_", "("), told);
    assert_eq!(entries(&module, "        \"tenderchock_", "\""), told);
    assert_eq!(
        entries(&read("desk-rs/src/sys.rs"), "    fn tenderchock_", "("),
        told
    );
    assert_eq!(
        entries(&read("desk-rs/tests/entries.c"), " tenderchock_", "(").len(),
        12
    );
    for number in 1..=13 {
        let meaning = tenderchock::meaning(number);
        let reason = |line: &str| {
            let (_, rest) = line.split_once(" = ")?;
            let (given, told) = rest.split_once("/* ")?;
            let given: u8 = given.trim_end_matches([' ', ',']).parse().ok()?;
            Some(given == number && told.starts_with(meaning))
        };
        let held = header.lines().filter_map(reason).any(|same| same);
        assert!(held, "the header has no {number}: {meaning}");
        let entry = format!("    {number}: \"{meaning}\",\n");
        assert!(module.contains(&entry), "the module has no {entry}");
    }
}

#[test]
fn python_has_the_same_answers() {
    if !has("cc") || !has("python3") {
        return;
    }
    let folder = Folder::new("foreign-python");
    let shared = folder.file("libtenderchock.so");
    // The command of python/README.md.
    ran(cc().args(["-shared", "-o", &shared]).args([
        "-Wl,--whole-archive",
        ARCHIVE,
        "-Wl,--no-whole-archive",
    ]));
    let python = || {
        let mut python = Command::new("python3");
        python.arg("-B").current_dir(root());
        python
            .env("TENDERCHOCK_SO", &shared)
            .env("PYTHONPATH", "python");
        python
    };
    ran(python().args(["-m", "unittest", "discover", "-s", "python"]));
    assert_eq!(ran(python().arg("examples/lift.py")), LIFTED);
}
