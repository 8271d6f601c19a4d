//! Words, numbers, sizes: how a text falls into lines and words, and how one
//! word is read. The places of a word's refusals count from its first byte.

use crate::ledger::{require, Answer, Reason, Refusal, Strand};
use crate::ledger::{COLOUR_LIMIT, NAME_LIMIT, TEXT_LIMIT};

/// A line without its line feed, and where it starts in the text.
#[derive(Clone, Copy, Debug, PartialEq, Eq)]
pub struct Line<'t> {
    pub start: usize,
    pub bytes: &'t [u8],
}

impl Line<'_> {
    /// The offset of the line feed, or the text's length.
    pub fn end(&self) -> usize {
        self.start + self.bytes.len()
    }
}

/// A word and where it starts in the text.
#[derive(Clone, Copy, Debug, PartialEq, Eq)]
pub struct Word<'t> {
    pub start: usize,
    pub bytes: &'t [u8],
}

impl Word<'_> {
    /// The offset just past the word.
    pub fn end(&self) -> usize {
        self.start + self.bytes.len()
    }

    /// Where the word stands, as a record keeps it.
    pub fn part(&self) -> Part {
        Part {
            start: self.start as u64,
            length: self.bytes.len() as u64,
        }
    }
}

/// The part of a text that a name stands in.
#[derive(Clone, Copy, Debug, PartialEq, Eq)]
pub struct Part {
    pub start: u64,
    pub length: u64,
}

impl Part {
    /// The empty part at the start of a text.
    pub const NOWHERE: Part = Part {
        start: 0,
        length: 0,
    };
}

/// The text's length (1), then its bytes: tab, line feed, 32 to 126 (3).
pub fn check_text(text: &[u8]) -> Answer<()> {
    require(text.len() <= TEXT_LIMIT, Reason::TextTooLong, 0)?;
    match text.iter().position(|byte| !allowed(*byte)) {
        Some(place) => Err(Refusal::new(Reason::BadByte, place)),
        None => Ok(()),
    }
}

fn allowed(byte: u8) -> bool {
    matches!(byte, b'\t' | b'\n' | 32..=126)
}

/// The lines of a text. The last may lack its line feed; a line feed at the
/// text's end starts no further line.
pub fn lines(text: &[u8]) -> Vec<Line<'_>> {
    let mut lines = Vec::new();
    let mut start = 0;
    for piece in text.split_inclusive(|byte| *byte == b'\n') {
        let bytes = piece.strip_suffix(b"\n").unwrap_or(piece);
        lines.push(Line { start, bytes });
        start += piece.len();
    }
    lines
}

/// The words of a line, parted by spaces and tabs.
pub fn words<'t>(line: &Line<'t>) -> Vec<Word<'t>> {
    let mut words = Vec::new();
    let mut start = line.start;
    for bytes in line.bytes.split(|byte| matches!(byte, b' ' | b'\t')) {
        if !bytes.is_empty() {
            words.push(Word { start, bytes });
        }
        start += bytes.len() + 1;
    }
    words
}

/// Refusal 2 for a line where at most `most` words may stand: at the first
/// surplus word, else at the line's end.
pub fn wrong_count(line: &Line, most: usize) -> Refusal {
    let surplus = words(line).get(most).map(|word| word.start);
    Refusal::new(Reason::WrongCount, surplus.unwrap_or(line.end()))
}

/// A text of one line: 1, 3, then 2 where there is no line at all.
/// Answers the line and the first surplus line.
pub fn one_line(text: &[u8]) -> Answer<(Line<'_>, Option<Line<'_>>)> {
    check_text(text)?;
    let lines = lines(text);
    match lines.first() {
        Some(line) => Ok((*line, lines.get(1).copied())),
        None => Err(Refusal::new(Reason::WrongCount, text.len())),
    }
}

/// Refusal 2 where a surplus line stands.
pub fn no_surplus(surplus: Option<&Line>) -> Answer<()> {
    match surplus {
        Some(line) => Err(wrong_count(line, 0)),
        None => Ok(()),
    }
}

/// A number: digits only, no leading zero but in `0` itself (4), and from
/// `least` to `most` (5).
pub fn number(word: &[u8], least: u64, most: u64) -> Answer<u64> {
    let leading_zero = word.len() > 1 && word[0] == b'0';
    let digits_only = !word.is_empty() && word.iter().all(u8::is_ascii_digit);
    require(digits_only && !leading_zero, Reason::Misspelt, 0)?;
    let value = word.iter().fold(0u128, |value, digit| {
        value
            .saturating_mul(10)
            .saturating_add(u128::from(digit - b'0'))
    });
    let in_range = (u128::from(least)..=u128::from(most)).contains(&value);
    require(in_range, Reason::OutOfRange, 0)?;
    Ok(value as u64)
}

/// A comma list: its items from the left (4, 5), then their count (8), where
/// one is asked for. A further comma at the end is passed over if allowed.
pub fn list(
    word: &[u8],
    least: u64,
    most: u64,
    further_comma_allowed: bool,
    count: Option<u64>,
) -> Answer<Vec<u64>> {
    let mut place = 0;
    let mut values = Vec::new();
    for item in items(word, further_comma_allowed) {
        values.push(number(item, least, most).map_err(|refusal| refusal.moved(place))?);
        place += item.len() + 1;
    }
    let expected = count.unwrap_or(values.len() as u64);
    require(values.len() as u64 == expected, Reason::ListLength, 0)?;
    Ok(values)
}

fn items(word: &[u8], further_comma_allowed: bool) -> Vec<&[u8]> {
    let listed = match word.strip_suffix(b",") {
        Some(before) if further_comma_allowed => before,
        _ => word,
    };
    listed.split(|byte| *byte == b',').collect()
}

/// A name, by its length: 1 to 64 bytes (6).
pub fn name(word: &[u8]) -> Answer<&[u8]> {
    require(name_length(word.len() as u64), Reason::BadWord, 0)?;
    Ok(word)
}

/// Whether a name may have this length.
pub fn name_length(length: u64) -> bool {
    (1..=NAME_LIMIT).contains(&length)
}

/// Whether a writer may write this name: its length, and its bytes 33 to 126.
pub fn name_writable(name: &[u8]) -> bool {
    name_length(name.len() as u64) && name.iter().all(u8::is_ascii_graphic)
}

/// A strand: `+`, `-` and, where allowed, `.` (6).
pub fn strand(word: &[u8], dot_allowed: bool) -> Answer<Strand> {
    let spelt = match word {
        [letter] => Strand::from_letter(*letter),
        _ => None,
    };
    spelt
        .filter(|strand| dot_allowed || *strand != Strand::Dot)
        .ok_or(Refusal::new(Reason::BadWord, 0))
}

/// A fixed word (6).
pub fn fixed(word: &[u8], expected: &str) -> Answer<()> {
    require(word == expected.as_bytes(), Reason::BadWord, 0)
}

/// itemRgb: `0`, or three numbers to 255 with no comma at the end.
pub fn colour(word: &[u8]) -> Answer<[u64; 3]> {
    if word == b"0" {
        return Ok([0, 0, 0]);
    }
    let parts = list(word, 0, COLOUR_LIMIT, false, Some(3))?;
    Ok([parts[0], parts[1], parts[2]])
}

/// A name handed back: the part of the text it stands in, or the empty part at
/// the text's end where it wouldn't lie in the text.
pub fn name_in(text: &[u8], start: u64, length: u64) -> &[u8] {
    let end = u128::from(start) + u128::from(length);
    if end <= text.len() as u128 {
        &text[start as usize..end as usize]
    } else {
        &text[text.len()..]
    }
}

/// The name that a record's part stands for.
pub fn part_in(text: &[u8], part: Part) -> &[u8] {
    name_in(text, part.start, part.length)
}
