//! The texts of `--help` and `--version`, made from the table of commands.

use crate::table::{Known, Verb, ABOUT, PROGRAM, STATUSES, VERBS};

/// Where lines end.
const WIDTH: usize = 98;

/// The version, and whether the library's proofs were checked in this build.
pub fn version() -> String {
    let (version, proofs) = (env!("CARGO_PKG_VERSION"), tenderchock::PROOFS);
    format!("tenderchock {version}\nproofs: {proofs}\n")
}

/// The program in short.
pub fn program() -> String {
    let mut text = format!("tenderchock: {PROGRAM}\n\n");
    let usages: Vec<String> = VERBS.iter().map(Verb::usage).collect();
    let rows = usages
        .iter()
        .zip(VERBS)
        .map(|(usage, verb)| (usage.as_str(), verb.does));
    text += &rows_of(rows.chain(GENERAL.iter().copied()));
    text += &paragraphs(ABOUT);
    text += &statuses(&STATUSES);
    text
}

/// What is said without a command.
pub const GENERAL: [(&str, &str); 2] = [
    (
        "tenderchock COMMAND --help",
        "the command's options, an example and its exit status",
    ),
    (
        "tenderchock --version",
        "the version, and whether the library's proofs were checked in its build",
    ),
];

/// One command.
pub fn command(verb: &Verb) -> String {
    let mut text = format!("{}: {}\n", verb.usage(), verb.does);
    text += &paragraphs(verb.about);
    let options: Vec<&Known> = verb.options().collect();
    if !options.is_empty() {
        let shown: Vec<String> = options.iter().map(|known| known.shown()).collect();
        let does = options.iter().map(|known| known.does);
        text += &format!("\n{}", rows_of(shown.iter().map(String::as_str).zip(does)));
    }
    text += &statuses(&verb.statuses);
    text += "\nExample.\n\n";
    for line in verb.example.lines() {
        text += &format!("    {line}\n");
    }
    text
}

fn statuses(statuses: &[&str; 3]) -> String {
    let told = (0..).zip(statuses).filter(|(_, when)| !when.is_empty());
    let told: Vec<String> = told
        .map(|(number, when)| format!("{number}: {when}"))
        .collect();
    paragraphs(&[&format!("Exit status. {}.", told.join("; "))])
}

fn paragraphs(paragraphs: &[&str]) -> String {
    let paragraph = |text: &&str| format!("\n{}\n", wrapped(text, WIDTH).join("\n"));
    paragraphs.iter().map(paragraph).collect()
}

/// Words and what they do, in two columns; long words have a line of their own.
fn rows_of<'t>(rows: impl Iterator<Item = (&'t str, &'t str)>) -> String {
    const COLUMN: usize = 31;
    let mut text = String::new();
    for (words, does) in rows {
        let mut left = words;
        if words.len() > COLUMN - 4 {
            text += &format!("  {words}\n");
            left = "";
        }
        for line in wrapped(does, WIDTH - COLUMN) {
            text += &format!("  {left:width$}{line}\n", width = COLUMN - 2);
            left = "";
        }
    }
    text
}

/// A text in lines of at most this many characters, parted at blanks.
fn wrapped(text: &str, width: usize) -> Vec<String> {
    let mut lines = vec![String::new()];
    for word in text.split(' ') {
        match lines.last_mut() {
            Some(line) if line.is_empty() => line.push_str(word),
            Some(line) if line.len() + 1 + word.len() <= width => {
                line.push(' ');
                line.push_str(word);
            }
            _ => lines.push(word.to_string()),
        }
    }
    lines
}

#[cfg(test)]
mod tests {
    use super::*;

    #[test]
    fn no_line_is_too_long_and_every_option_is_told() {
        let texts = VERBS.iter().map(command).chain([program(), version()]);
        for text in texts {
            let long = text.lines().find(|line| line.chars().count() > WIDTH);
            assert!(long.is_none(), "{long:?}");
        }
        for verb in VERBS {
            let text = command(verb);
            assert!(text.starts_with(&verb.usage()));
            for known in verb.options() {
                assert!(
                    text.contains(&format!("\n  {}", known.shown())),
                    "{}",
                    known.name
                );
            }
            assert!(program().contains(&format!("\n  {}", verb.usage())));
        }
    }
}
