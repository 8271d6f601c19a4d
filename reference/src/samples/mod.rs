//! What the cases share: answers as bytes, and the words of a record that is handed in.

pub mod bed_cases;
pub mod chain_cases;
pub mod escape;
pub mod lift_cases;
pub mod psl_cases;
pub mod words;

use reference::ledger::{Answer, Refusal, Strand};
use reference::rows::Row;
use reference::text::{self, Part};

/// A refusal: the number and the place.
pub fn refused(refusal: Refusal) -> Vec<u8> {
    format!("refused {} at {}", refusal.reason.number(), refusal.place).into_bytes()
}

/// What a record checker says.
fn checked(answer: Answer<()>) -> Vec<u8> {
    match answer {
        Ok(()) => b"ok".to_vec(),
        Err(refusal) => refused(refusal),
    }
}

/// What a writer wrote, its tabs and line feeds by their escapes, or why it wrote nothing.
fn shown(written: Answer<Vec<u8>>) -> Vec<u8> {
    let show = |byte: u8| match byte {
        b'\t' => b"\\t".to_vec(),
        b'\n' => b"\\n".to_vec(),
        _ => vec![byte],
    };
    match written {
        Ok(text) => text.into_iter().flat_map(show).collect(),
        Err(refusal) => refused(refusal),
    }
}

/// Where a name stands, and its length.
fn part(part: Part) -> String {
    format!("{}+{}", part.start, part.length)
}

/// Rows of three numbers, a space before each.
fn row_list(rows: &[Row]) -> String {
    let row = |row: &Row| format!(" {},{},{}", row.target, row.query, row.size);
    rows.iter().map(row).collect()
}

/// The answer of a reader: a record's columns, its rows, its standard text and what the record
/// checker says; or the refusal.
fn accepted(columns: &str, rows: &[Row], text: Answer<Vec<u8>>, check: Answer<()>) -> Vec<u8> {
    [
        columns.as_bytes(),
        b" rows",
        row_list(rows).as_bytes(),
        b" text ",
        &shown(text),
        b" check ",
        &checked(check),
    ]
    .concat()
}

/// The answer of a text checker: a record's columns, or the refusal.
fn checker(answer: Answer<String>) -> Vec<u8> {
    let answer = answer.map(String::into_bytes).unwrap_or_else(refused);
    [b" checker ", &answer[..]].concat()
}

/// The answers for a record that is handed in.
fn handed_in(check: Answer<()>, text: Answer<Vec<u8>>) -> Vec<u8> {
    [b"check ", &checked(check)[..], b" write ", &shown(text)].concat()
}

/// The words of a record that is handed in.
struct Handed<'p>(Vec<&'p [u8]>);

impl<'p> Handed<'p> {
    fn new(payload: &'p [u8]) -> Handed<'p> {
        let words = payload.split(|byte| *byte == b' ');
        Handed(words.filter(|word| !word.is_empty()).collect())
    }

    fn word(&self, at: usize) -> &'p [u8] {
        self.0.get(at).copied().unwrap_or_default()
    }

    /// A number of the machine; any other word is 0.
    fn number(&self, at: usize) -> u64 {
        text::number(self.word(at), 0, u64::MAX).unwrap_or(0)
    }

    /// The strand that a word begins with; any other word is none.
    fn strand(&self, at: usize) -> Strand {
        let letter = self.word(at).first();
        let strand = letter.and_then(|letter| Strand::from_letter(*letter));
        strand.unwrap_or(Strand::Dot)
    }

    /// The name after a word's first byte.
    fn name(&self, at: usize) -> Vec<u8> {
        escape::unescape(self.word(at).get(1..).unwrap_or_default())
    }

    /// The rows in the words from this one on.
    fn rows(&self, from: usize) -> Vec<Row> {
        self.0.iter().skip(from).map(|word| row_of(word)).collect()
    }
}

/// A name of so many bytes, whose place says nothing.
fn part_of(name: &[u8]) -> Part {
    Part {
        start: 0,
        length: name.len() as u64,
    }
}

/// A row of three numbers; any other word is a row of zeros.
fn row_of(word: &[u8]) -> Row {
    let items = text::list(word, 0, u64::MAX, true, Some(3)).unwrap_or_else(|_| vec![0; 3]);
    Row {
        target: items[0],
        query: items[1],
        size: items[2],
    }
}
