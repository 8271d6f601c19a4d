//! The samples command: one case a line on standard input, one answer a line on
//! standard output. A case is its letter, a space and an escaped payload (of the
//! record cases `W`, `X` and `Y`, words of which only the names are escaped; of the
//! cases of lifts, turns, tallies and batches, a question and a chain); empty lines and lines
//! that begin with `#` are comments.
//!
//! It makes what the programs that run the library must print:
//! `cargo run --offline --release --manifest-path reference/Cargo.toml < crates/samples_psl/stdin > crates/samples_psl/stdout`,
//! and so for each program.

mod samples;

use std::io::{self, Read, Write};

use reference::ledger::{Answer, BED_SCORE_LIMIT, BLOCK_LIMIT};
use reference::ledger::{CHAIN_ID_LIMIT, CHAIN_SCORE_LIMIT, COORDINATE_LIMIT};
use reference::lift::Tally;
use reference::{bed, chain, psl, text};
use samples::escape::unescape;
use samples::{bed_cases, chain_cases, lift_cases, psl_cases, refused, words};

fn main() -> io::Result<()> {
    let mut input = Vec::new();
    io::stdin().read_to_end(&mut input)?;
    let mut output = Vec::new();
    let mut tally = Tally::default();
    for line in text::lines(&input) {
        answer_line(line.bytes, &mut tally, &mut output);
    }
    io::stdout().write_all(&output)
}

/// Adds the answer to one line of the input; a comment has none. The tally is as the
/// last line left it.
fn answer_line(line: &[u8], tally: &mut Tally, output: &mut Vec<u8>) {
    let (letter, payload) = match line {
        [] | [b'#', ..] => return,
        [letter] => (*letter, &[][..]),
        [letter, b' ', payload @ ..] => (*letter, payload),
        [letter, ..] => {
            output.extend([&[*letter][..], b" unknown case\n"].concat());
            return;
        }
    };
    let answer = match letter {
        b'D' | b'E' | b'F' | b'G' | b'H' | b'I' => text_answer(letter, &unescape(payload)),
        b'W' => bed_cases::record(payload),
        b'X' => psl_cases::record(payload),
        b'Y' => chain_cases::record(payload),
        b'p' | b'g' | b'u' | b'a' | b'm' | b'R' => lift_cases::answer(letter, payload, tally),
        b'v' => lift_cases::conversion(payload),
        _ => answer(letter, &unescape(payload)).unwrap_or_else(refused),
    };
    output.extend([&[letter, b' '][..], &answer, b"\n"].concat());
}

/// The cases of whole texts: much room and the text checker, or little room.
fn text_answer(letter: u8, text: &[u8]) -> Vec<u8> {
    match letter {
        b'D' => [bed_cases::read(text, 512), bed_cases::check(text)].concat(),
        b'E' => bed_cases::read(text, 1),
        b'F' => [psl_cases::read(text, 512), psl_cases::check(text)].concat(),
        b'G' => psl_cases::read(text, 2),
        b'H' => [chain_cases::read(text, 512), chain_cases::check(text)].concat(),
        _ => chain_cases::read(text, 2),
    }
}

/// The cases of words, lists, lines, texts of numbers and columns.
fn answer(letter: u8, payload: &[u8]) -> Answer<Vec<u8>> {
    match letter {
        b't' => text::check_text(payload).map(|()| b"fine".to_vec()),
        b'l' => Ok(words::lines_and_words(payload).into_bytes()),
        b'c' => words::value(payload, 0, COORDINATE_LIMIT),
        b'z' => words::value(payload, 1, COORDINATE_LIMIT),
        b's' => words::value(payload, 0, CHAIN_SCORE_LIMIT),
        b'i' => words::value(payload, 0, CHAIN_ID_LIMIT),
        b'e' => words::value(payload, 0, BED_SCORE_LIMIT),
        b'b' => words::value(payload, 1, BLOCK_LIMIT),
        b'U' => words::value(payload, 0, u64::MAX),
        b'L' => words::items(payload, 0, None),
        b'Z' => words::items(payload, 1, None),
        b'2' => words::items(payload, 0, Some(2)),
        b'N' => words::numbers(payload, 32),
        b'r' => text::colour(payload).map(|[r, g, b]| format!("colour {r} {g} {b}").into_bytes()),
        b'n' => text::name(payload).map(|name| format!("name {}", name.len()).into_bytes()),
        b'+' => words::strand(payload, false),
        b'.' => words::strand(payload, true),
        b'k' => text::fixed(payload, "chain").map(|()| b"chain".to_vec()),
        b'd' => Ok(words::digits(payload)),
        b'B' => words::standard_line(payload, &bed::COLUMNS, b"\\t"),
        b'P' => words::standard_line(payload, &psl::COLUMNS, b"\\t"),
        b'C' => words::standard_line(payload, &chain::HEADER, b" "),
        _ => Ok(b"unknown case".to_vec()),
    }
}
