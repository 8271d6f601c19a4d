//! What the command tells of itself: help, version, man page and completions, all from one table.

mod common;

use std::io::Write;
use std::process::{Command, Stdio};

use common::{run, Folder};

const COMMANDS: [&str; 7] = [
    "check",
    "format",
    "turn",
    "lift",
    "convert",
    "man",
    "completion",
];

/// A text that is asked for; nothing else is told.
fn told(words: &[&str]) -> String {
    let ran = run(words);
    assert_eq!(
        (ran.errors.as_str(), ran.status),
        ("", Some(0)),
        "{words:?}"
    );
    ran.out
}

#[test]
fn the_version_says_whether_proofs_were_checked() {
    let version = format!("tenderchock {}\nproofs: ", env!("CARGO_PKG_VERSION"));
    let told = told(&["--version"]);
    let proofs = told
        .strip_prefix(&version)
        .expect("the version, then the proofs");
    let known = ["checked, by ", "not known to have been checked: "];
    assert!(
        known.iter().any(|start| proofs.starts_with(start)),
        "{proofs}"
    );
    assert_eq!(proofs, format!("{}\n", tenderchock::PROOFS));
    // An archive that is not handed in is proved, as the gate's is.
    if option_env!("TENDERCHOCK_LIB").is_none() {
        assert!(proofs.starts_with("checked, by "), "{proofs}");
    }
    assert_eq!(run(&["-V"]).out, told);
    let ran = run(&["check", "--version"]);
    assert_eq!((ran.out.as_str(), ran.status), ("", Some(2)));
}

#[test]
fn each_command_has_its_own_help() {
    let general = told(&["--help"]);
    assert_eq!(told(&["help"]), general);
    assert_eq!(told(&["-h"]), general);
    let helps: Vec<String> = COMMANDS
        .iter()
        .map(|command| told(&[command, "--help"]))
        .collect();
    for (command, help) in COMMANDS.iter().zip(&helps) {
        assert!(general.contains(&format!("\n  tenderchock {command}")));
        assert!(help.starts_with(&format!("tenderchock {command}")));
        assert_eq!(told(&["help", command]), *help);
        let flat = flat(help);
        for part in [" Exit status. 0: ", " 2: bad usage", " Example. $ "] {
            assert!(flat.contains(part), "{command}: {part}");
        }
    }
    assert!(helps[3].contains("\n  --min-kept F "));
    assert!(!helps[0].contains("--min-kept"));
    for words in [&["chek", "--help"][..], &["help", "chek"]] {
        let ran = run(words);
        assert_eq!((ran.out.as_str(), ran.status), ("", Some(2)), "{words:?}");
        assert!(ran.errors.contains("there is no command `chek`"));
    }
}

/// The words of a text in one line.
fn flat(text: &str) -> String {
    let words: Vec<&str> = text.split_whitespace().collect();
    words.join(" ")
}

/// The options that a command's help shows.
fn options(command: &str) -> Vec<String> {
    let help = told(&[command, "--help"]);
    let shown = help.lines().filter_map(|line| line.strip_prefix("  --"));
    let name = |line: &str| line.split(' ').next().unwrap_or_default().to_string();
    shown.map(name).collect()
}

#[test]
fn the_man_page_is_good_and_tells_all() {
    let page = told(&["man"]);
    for command in COMMANDS {
        assert!(
            page.contains(&format!("\n.SS tenderchock {command}")),
            "{command}"
        );
        for option in options(command) {
            let option = option.replace('-', "\\-");
            assert!(page.contains(&format!("\n.B \\-\\-{option}")), "{option}");
        }
    }
    // What can read it must have nothing to say.
    let groff = Command::new("groff")
        .args(["-man", "-ww", "-Tascii", "-P-cbou"])
        .stdin(Stdio::piped())
        .stdout(Stdio::piped())
        .stderr(Stdio::piped())
        .spawn();
    let Ok(mut groff) = groff else {
        let _ = writeln!(std::io::stderr(), "left out: there is no `groff`");
        return;
    };
    let _ = groff
        .stdin
        .take()
        .map(|mut stdin| stdin.write_all(page.as_bytes()));
    let output = groff.wait_with_output().expect("groff ends");
    assert_eq!(String::from_utf8_lossy(&output.stderr), "");
    let shown = flat(&String::from_utf8_lossy(&output.stdout));
    assert!(
        shown.contains("$ printf 'tA\\t10\\t20\\n' | tenderchock lift"),
        "{shown}"
    );
    assert!(shown.contains("a name looks like a date"));
}

#[test]
fn completions_have_every_command_and_option() {
    for shell in ["bash", "zsh", "fish"] {
        let script = told(&["completion", shell]);
        for command in COMMANDS {
            assert!(script.contains(command), "{shell}: {command}");
            for option in options(command) {
                let spelt = match shell {
                    "fish" => format!(" -l {option} "),
                    _ => format!("--{option}"),
                };
                assert!(script.contains(&spelt), "{shell}: {option}");
            }
        }
    }
    assert_eq!(run(&["completion", "tcsh"]).status, Some(2));
}

/// The scripts are read by their shells, as far as they are here.
#[test]
fn completions_can_be_read() {
    let folder = Folder::new("completions");
    for shell in ["bash", "zsh", "fish"] {
        let ran = folder.sh(&format!(
            "$T completion {shell} > script; command -v {shell} > /dev/null || exit 9; {shell} -n script"
        ));
        match ran.status {
            Some(9) => {
                let _ = writeln!(std::io::stderr(), "left out: there is no `{shell}`");
            }
            _ => assert_eq!((ran.errors.as_str(), ran.status), ("", Some(0)), "{shell}"),
        }
    }
}

#[test]
fn bash_completes() {
    let folder = Folder::new("completes");
    for (line, wanted) in [
        ("tenderchock che", "check"),
        ("tenderchock --v", "--version"),
        ("tenderchock check --k", "--kind"),
        ("tenderchock check --kind p", "psl"),
        ("tenderchock check --kind = p", "psl"),
        ("tenderchock lift --several b", "best"),
        (
            "tenderchock lift --s",
            "--strict --several --summary --span",
        ),
        ("tenderchock completion z", "zsh"),
        ("tenderchock convert --k", ""),
    ] {
        let ran = folder.sh(&format!(
            "command -v bash > /dev/null || exit 9; $T completion bash > script; bash -c '. ./script; \
             COMP_WORDS=({line}); COMP_CWORD=$((${{#COMP_WORDS[@]}} - 1)); _tenderchock; echo ${{COMPREPLY[@]}}'"
        ));
        if ran.status == Some(9) {
            let _ = writeln!(std::io::stderr(), "left out: there is no `bash`");
            return;
        }
        assert_eq!(
            (ran.out.trim_end(), ran.errors.as_str()),
            (wanted, ""),
            "{line}"
        );
    }
}
