//! The man page, made from the table of commands.

use crate::help::GENERAL;
use crate::table::{Verb, ABOUT, PROGRAM, STATUSES, VERBS};

pub fn page() -> String {
    let version = env!("CARGO_PKG_VERSION");
    let mut page = format!(".TH TENDERCHOCK 1 \"\" \"tenderchock {version}\" \"User Commands\"\n");
    page += &format!(".SH NAME\ntenderchock {} {}\n", r"\-", line(PROGRAM));
    page += ".SH SYNOPSIS\n.nf\n";
    for usage in VERBS
        .iter()
        .map(Verb::usage)
        .chain(GENERAL.map(|(usage, _)| usage.to_string()))
    {
        page += &format!("{}\n", line(&usage));
    }
    page += ".fi\n.SH DESCRIPTION\n";
    page += &paragraphs(ABOUT);
    page += ".SH COMMANDS\n";
    for verb in VERBS {
        page += &command(verb);
    }
    page += ".SH EXIT STATUS\n";
    page += &statuses(&STATUSES);
    page
}

fn command(verb: &Verb) -> String {
    let mut page = format!(".SS {}\n{}.\n", line(&verb.usage()), line(verb.does));
    page += &paragraphs(verb.about);
    for known in verb.options() {
        page += &format!(".TP\n.B {}\n{}\n", line(&known.shown()), line(known.does));
    }
    page += ".PP\nExit status:\n";
    page += &statuses(&verb.statuses);
    page += ".PP\nExample:\n.PP\n.RS\n.nf\n";
    for example in verb.example.lines() {
        page += &format!("{}\n", line(example));
    }
    page += ".fi\n.RE\n";
    page
}

fn statuses(statuses: &[&str; 3]) -> String {
    let told = (0..).zip(statuses).filter(|(_, when)| !when.is_empty());
    told.map(|(number, when)| format!(".TP\n.B {number}\n{}\n", line(when)))
        .collect()
}

fn paragraphs(paragraphs: &[&str]) -> String {
    let paragraph = |text: &&str| format!(".PP\n{}\n", line(text));
    paragraphs.iter().map(paragraph).collect()
}

/// A line of text as roff takes it: what it would read as its own is spelt out.
fn line(text: &str) -> String {
    let mut line = String::new();
    // A point or an apostrophe at the front would begin a request.
    if text.starts_with(['.', '\'']) {
        line += r"\&";
    }
    for letter in text.chars() {
        match letter {
            '\\' => line += r"\e",
            '-' => line += r"\-",
            '`' => line += r"\(ga",
            '\'' => line += r"\(aq",
            '~' => line += r"\(ti",
            '^' => line += r"\(ha",
            other => line.push(other),
        }
    }
    line
}
