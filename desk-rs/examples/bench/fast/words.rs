//! The bytes of a text, the words of a line, numbers and lists.

use super::TEXT_LIMIT;

/// A refusal: its number and its place.
#[derive(Clone, Copy, Debug, PartialEq, Eq)]
pub struct Refused {
    pub number: u8,
    pub place: usize,
}

impl Refused {
    pub fn new(number: u8, place: usize) -> Refused {
        Refused { number, place }
    }
}

pub type Answer<T> = Result<T, Refused>;

/// Where a word starts and ends.
pub type Word = (usize, usize);

/// The text's length (1), then its bytes (3), sixty-four at a time.
pub fn check_text(text: &[u8]) -> Answer<()> {
    if text.len() > TEXT_LIMIT {
        return Err(Refused::new(1, 0));
    }
    let mut chunks = text.chunks_exact(64);
    let good = chunks.all(|chunk| chunk.iter().fold(true, |good, byte| good & allowed(byte)))
        && chunks.remainder().iter().all(allowed);
    match good {
        true => Ok(()),
        false => {
            let place = text.iter().position(|byte| !allowed(byte));
            Err(Refused::new(3, place.unwrap_or(0)))
        }
    }
}

fn allowed(byte: &u8) -> bool {
    (32..127).contains(byte) | (*byte == b'\t') | (*byte == b'\n')
}

/// A line split into its words, up to N of them.
pub struct Split<const N: usize> {
    pub words: [Word; N],
    /// The number of words, N + 1 standing for more than N.
    pub count: usize,
    /// The first surplus word, else the line's end.
    pub end: usize,
}

/// Splits the line that starts at `from`.
#[inline]
pub fn split<const N: usize>(text: &[u8], from: usize) -> Split<N> {
    let mut words = [(0, 0); N];
    let mut count = 0;
    let mut at = from;
    loop {
        at += blanks(&text[at..]);
        if text.get(at).is_none_or(|byte| *byte == b'\n') {
            return Split {
                words,
                count,
                end: at,
            };
        }
        let Some(word) = words.get_mut(count) else {
            return Split {
                words,
                count: N + 1,
                end: at,
            };
        };
        let length = text[at..].iter().take_while(|byte| **byte > b' ').count();
        *word = (at, at + length);
        at += length;
        count += 1;
    }
}

fn blanks(text: &[u8]) -> usize {
    text.iter().take_while(|byte| blank(byte)).count()
}

pub fn blank(byte: &u8) -> bool {
    matches!(byte, b' ' | b'\t')
}

/// Refusal 2 if a line follows the one that ends at `end`.
pub fn no_surplus_line(text: &[u8], end: usize) -> Answer<()> {
    match end + 1 < text.len() {
        true => Err(Refused::new(2, split::<0>(text, end + 1).end)),
        false => Ok(()),
    }
}

/// Spelling (4) and range (5) of an item whose bytes are all digits, of this value.
#[inline(always)]
fn judged(item: &[u8], value: u64, range: (u64, u64)) -> Result<u64, u8> {
    match item {
        [] | [b'0', _, ..] => Err(4),
        // Nineteen digits don't overflow.
        _ if item.len() > 19 || value < range.0 || value > range.1 => Err(5),
        _ => Ok(value),
    }
}

/// A word that is a number.
#[inline]
pub fn number(text: &[u8], (start, end): Word, range: (u64, u64)) -> Answer<u64> {
    let mut value = 0u64;
    let word = &text[start..end];
    for byte in word {
        let digit = byte.wrapping_sub(b'0');
        if digit > 9 {
            return Err(Refused::new(4, start));
        }
        value = value.wrapping_mul(10).wrapping_add(u64::from(digit));
    }
    judged(word, value, range).map_err(|number| Refused::new(number, start))
}

/// A word that is a comma list: `store` gets each item with its index. Answers
/// the number of items.
#[inline]
pub fn list(
    text: &[u8],
    (start, end): Word,
    range: (u64, u64),
    further_comma: bool,
    mut store: impl FnMut(usize, u64),
) -> Answer<usize> {
    let word = &text[start..end];
    let (mut value, mut from, mut count) = (0u64, 0, 0);
    for (at, byte) in word.iter().enumerate() {
        let digit = byte.wrapping_sub(b'0');
        if digit <= 9 {
            value = value.wrapping_mul(10).wrapping_add(u64::from(digit));
            continue;
        }
        let item = if *byte == b',' { &word[from..at] } else { &[] };
        let judged = judged(item, value, range);
        store(
            count,
            judged.map_err(|number| Refused::new(number, start + from))?,
        );
        (value, from, count) = (0, at + 1, count + 1);
    }
    if from == word.len() && further_comma {
        return Ok(count);
    }
    let judged = judged(&word[from..], value, range);
    store(
        count,
        judged.map_err(|number| Refused::new(number, start + from))?,
    );
    Ok(count + 1)
}

/// A list that must have `wanted` items (8).
#[inline]
pub fn list_of(
    text: &[u8],
    word: Word,
    range: (u64, u64),
    wanted: u64,
    store: impl FnMut(usize, u64),
) -> Answer<()> {
    match list(text, word, range, true, store)? as u64 == wanted {
        true => Ok(()),
        false => Err(Refused::new(8, word.0)),
    }
}

/// A name, by its length (6).
pub fn name((start, end): Word) -> Answer<Word> {
    match end - start <= 64 {
        true => Ok((start, end)),
        false => Err(Refused::new(6, start)),
    }
}

/// One of these letters alone (6).
pub fn letter(text: &[u8], (start, end): Word, letters: &[u8]) -> Answer<u8> {
    match end - start == 1 && letters.contains(&text[start]) {
        true => Ok(text[start]),
        false => Err(Refused::new(6, start)),
    }
}

/// Refuses unless the rule holds.
pub fn require(holds: bool, number: u8, place: usize) -> Answer<()> {
    match holds {
        true => Ok(()),
        false => Err(Refused::new(number, place)),
    }
}
