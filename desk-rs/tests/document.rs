//! The examples of README.md, of docs/COMMAND.md and of each command's help, run as they stand there: a line after `$ `
//! is a command, the lines below it are what it writes.

mod common;

use std::fs;

use common::{root, run, Folder};

/// The commands of a document, each with what it writes. Where only examples stand indented, there is nothing else.
fn examples(document: &str, only: bool) -> Vec<(String, String)> {
    let mut examples: Vec<(String, String)> = Vec::new();
    let mut open = false;
    for line in document.lines() {
        match line.strip_prefix("    ") {
            None => open = false,
            Some(code) => match (code.strip_prefix("$ "), examples.last_mut()) {
                (Some(command), _) => {
                    examples.push((command.to_string(), String::new()));
                    open = true;
                }
                (None, Some((_, written))) if open => {
                    written.push_str(code);
                    written.push('\n');
                }
                _ if only => panic!("no command before {code}"),
                // What a user is to run, without an answer.
                _ => (),
            },
        }
    }
    examples
}

/// Runs the examples of a document, of which there must be so many, in a folder beside the sample files.
fn are_right(name: &str, document: &str, least: usize, only: bool) {
    let folder = Folder::new(&format!("document-{name}"));
    folder.sh("ln -s $E examples");
    let examples = examples(document, only);
    assert!(examples.len() >= least, "{name}");
    for (command, written) in examples {
        let ran = folder.sh(&format!(
            "tenderchock() {{ \"$T\" \"$@\"; }}; {{ {command}; }} 2>&1"
        ));
        assert_eq!(ran.out, written, "{name}: {command}");
    }
}

fn document(name: &str) -> String {
    fs::read_to_string(root().join(name)).expect("the document")
}

#[test]
fn the_examples_of_the_first_page_are_right() {
    are_right("readme", &document("README.md"), 3, false);
}

#[test]
fn the_examples_of_the_document_are_right() {
    are_right("command", &document("docs/COMMAND.md"), 6, true);
}

#[test]
fn the_examples_of_the_help_are_right() {
    for command in COMMANDS {
        let help = run(&[command, "--help"]).out;
        let (_, example) = help.split_once("\nExample.\n").expect("an example");
        are_right(command, example, 1, false);
    }
}

const COMMANDS: [&str; 7] = [
    "check",
    "format",
    "turn",
    "lift",
    "convert",
    "man",
    "completion",
];

/// The first page is for a lab: at most 500 words, and every refusal by its number. Where to read on is below it.
#[test]
fn the_first_page_is_short_and_has_every_refusal() {
    let readme = document("README.md");
    let (page, _) = readme.split_once("\n## Read on").expect("a first page");
    let words = page.split_whitespace().count();
    assert!(words <= 500, "{words} words");
    for number in 1..=13 {
        let row = format!("\n{number}. {}: ", tenderchock::meaning(number));
        assert!(page.contains(&row), "{row}");
    }
}

/// Documents keep to 120 columns.
#[test]
fn no_document_is_too_wide() {
    let folders = ["", "docs", "docs/landings", "desk-rs", "python"];
    let mut seen = 0;
    for folder in folders.map(|folder| root().join(folder)) {
        for path in fs::read_dir(folder)
            .expect("a folder")
            .flatten()
            .map(|entry| entry.path())
        {
            if path.extension().is_some_and(|ending| ending == "md") {
                let text = fs::read_to_string(&path).expect("a document");
                let wide = |line: &&str| line.len() > 120;
                let wide = text.lines().find(wide);
                assert_eq!(wide, None, "{}", path.display());
                seen += 1;
            }
        }
    }
    assert!(seen > 10);
}
