//! Cases of words, lists, lines, texts of numbers and columns.

use reference::columns::{self, Column, Value};
use reference::ledger::{Answer, COORDINATE_LIMIT};
use reference::numbers;
use reference::text::{self, Line, Word};

pub fn lines_and_words(text: &[u8]) -> String {
    let lines: Vec<String> = text::lines(text).iter().map(line_and_words).collect();
    match lines.is_empty() {
        true => "none".to_string(),
        false => lines.join(" | "),
    }
}

fn line_and_words(line: &Line) -> String {
    let place = |word: &Word| format!(" {}-{}", word.start, word.end());
    let words: String = text::words(line).iter().map(place).collect();
    format!("{}-{}:{}", line.start, line.end(), words)
}

pub fn value(word: &[u8], least: u64, most: u64) -> Answer<Vec<u8>> {
    let number = text::number(word, least, most)?;
    Ok(format!("value {number}").into_bytes())
}

pub fn items(word: &[u8], least: u64, count: Option<u64>) -> Answer<Vec<u8>> {
    text::list(word, least, COORDINATE_LIMIT, true, count).map(|items| counted(&items))
}

/// A text of numbers, read into room for a few of them.
pub fn numbers(text: &[u8], room: usize) -> Answer<Vec<u8>> {
    numbers::read(text, room).map(|numbers| counted(&numbers))
}

/// Numbers, and how many they are.
fn counted(numbers: &[u64]) -> Vec<u8> {
    let spelt: String = numbers.iter().map(|number| format!(" {number}")).collect();
    format!("count {}:{spelt}", numbers.len()).into_bytes()
}

pub fn strand(word: &[u8], dot_allowed: bool) -> Answer<Vec<u8>> {
    let letter = text::strand(word, dot_allowed)?.letter();
    Ok([b"strand ", &[letter][..]].concat())
}

/// The standard digits of a number, and the list of that one item.
pub fn digits(word: &[u8]) -> Vec<u8> {
    match text::number(word, 0, u64::MAX) {
        Ok(number) => [
            b"digits ".to_vec(),
            Value::Number(number).standard(),
            b" list ".to_vec(),
            Value::List(vec![number]).standard(),
        ]
        .concat(),
        Err(_) => b"no number".to_vec(),
    }
}

/// Reads one line by a table of columns and writes it back.
pub fn standard_line(line: &[u8], columns: &[Column], separator: &[u8]) -> Answer<Vec<u8>> {
    let line = Line {
        start: 0,
        bytes: line,
    };
    let values = columns::read(columns, &line)?;
    Ok(columns::standard_line(&values, separator))
}
