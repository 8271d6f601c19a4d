//! A text of numbers: one line of any number of words, each a number.

use crate::ledger::{require, Answer, Reason, NUMBER_LIMIT};
use crate::text::{self, Line};

/// Reads the numbers of a text; `room` is how many are lent. A text of no line or
/// of no word has none.
pub fn read(text: &[u8], room: usize) -> Answer<Vec<u64>> {
    text::check_text(text)?;
    let lines = text::lines(text);
    let numbers = match lines.first() {
        Some(line) => in_line(line)?,
        None => Vec::new(),
    };
    text::no_surplus(lines.get(1))?;
    require(numbers.len() <= room, Reason::NoRoom, text.len())?;
    Ok(numbers)
}

/// The words of a line from the left, each a number.
fn in_line(line: &Line) -> Answer<Vec<u64>> {
    let mut numbers = Vec::new();
    for word in text::words(line) {
        let number = text::number(word.bytes, 0, NUMBER_LIMIT);
        numbers.push(number.map_err(|refusal| refusal.moved(word.start))?);
    }
    Ok(numbers)
}
