//! Hints: what often lies behind a refusal, above all what spreadsheets do to
//! files. A hint mends nothing.

use crate::explain::Fault;
use crate::notes::{self, looks_like_date};
use tenderchock::Kind;

/// A hint for this refusal, if there is one.
pub fn hint(fault: &Fault) -> Option<String> {
    match fault.number {
        2 => count_hint(fault).map(String::from),
        3 => byte_hint(fault).map(String::from),
        4 => number_hint(fault).map(String::from),
        5 | 6 => range_hint(fault),
        7 => span_hint(fault).map(String::from),
        8 => list_hint(fault),
        9 => Some(block_rule(fault.kind).into()),
        10 => Some(COUNT_RULE.into()),
        _ => None,
    }
}

/// 2: what parts words, and what doesn't.
fn count_hint(fault: &Fault) -> Option<&'static str> {
    let line = fault.line;
    let first = fault.words.first().map_or(&[][..], |(_, word)| word);
    if fault.no_text {
        Some("the file holds none")
    } else if first.is_empty() {
        Some("an empty line; delete it")
    } else if fault.kind == Kind::Psl && is_psl_heading(first) {
        Some("this is BLAT's heading; run it with -noHead, or delete these lines")
    } else if has_empty_cell(line) {
        Some("an empty cell; tabs in a row count as one, so fill it")
    } else if fault.words.len() == 1 && line.iter().any(|byte| matches!(byte, b',' | b';')) {
        Some("is this comma-separated? save it as tab-delimited text")
    } else {
        None
    }
}

fn is_psl_heading(first: &[u8]) -> bool {
    first == b"psLayout" || first == b"match" || first.starts_with(b"---")
}

fn has_empty_cell(line: &[u8]) -> bool {
    notes::empty_cell(line).is_some()
}

/// 3: the byte in words.
pub fn byte_named(byte: u8) -> String {
    match byte {
        b'\r' => "byte 13, a carriage return".to_string(),
        0 => "byte 0".to_string(),
        _ => format!("byte {byte} (hexadecimal {byte:02X})"),
    }
}

fn byte_hint(fault: &Fault) -> Option<&'static str> {
    let from = fault.line.get(fault.place..).unwrap_or_default();
    if from.len() > 1 && from.starts_with(b"\r") {
        Some("a carriage return inside the line; if lines should end there, save with Unix line ends")
    } else if from.starts_with(b"\r") {
        Some("the line ends as Windows writes it; save with Unix line ends")
    } else if from.starts_with(b"\xEF\xBB\xBF") {
        Some("a byte order mark; save as plain text, or as UTF-8 without the mark")
    } else if from.starts_with(b"\xFF\xFE")
        || from.starts_with(b"\xFE\xFF")
        || from.starts_with(b"\0")
    {
        Some("is this UTF-16, or not a text at all? save as plain text")
    } else if from.starts_with(b"\x8B") || from.starts_with(b"\x1F\x8B") {
        Some("is this file compressed? unpack it first")
    } else if from.starts_with(b"\xC2\xA0") || from.starts_with(b"\xA0") {
        Some("a space that may not break, as word processors write it; put a plain one")
    } else if from.first().is_some_and(|byte| *byte > 127) {
        Some("only plain ASCII is allowed: no accents, typographic quotes or long dashes")
    } else {
        None
    }
}

/// 5 and 6: what may stand in the column.
fn range_hint(fault: &Fault) -> Option<String> {
    match fault.word().starts_with(b"#") {
        true => Some("an error that a spreadsheet left in the cell".into()),
        false => fault
            .field()
            .map(|field| format!("it must be {}", field.holds)),
    }
}

/// 4: what stands where a number should.
fn number_hint(fault: &Fault) -> Option<&'static str> {
    let word = fault.item();
    let digits = |part: &[u8]| !part.is_empty() && part.iter().all(u8::is_ascii_digit);
    let only = |more: &[u8]| {
        word.iter()
            .all(|byte| byte.is_ascii_digit() || more.contains(byte))
    };
    if is_heading(fault) {
        Some("a heading? delete the line, or put `#` at its front")
    } else if word == b"." {
        Some("`.` is no number; where there is no value, write 0")
    } else if word.is_empty() {
        Some("two commas in a row, or a comma too many")
    } else if word.iter().any(|byte| matches!(byte, b'"' | b'\'')) {
        Some("quotation marks; save without them")
    } else if word.starts_with(b"#") {
        Some("an error that a spreadsheet left in the cell")
    } else if looks_like_date(word) {
        Some("a date; a spreadsheet made it, and the number must come from its source")
    } else if digits(word) {
        Some("a number has no zeros in front")
    } else if only(b",") {
        Some("a comma is never part of a number; a spreadsheet may have put it between thousands")
    } else if only(b".,") {
        Some(
            "a point is never part of a number; a spreadsheet may have made a decimal number of it",
        )
    } else if is_power(word) {
        Some("a spreadsheet's short form of a long number; take the number from its source")
    } else if only(b"+-") && word.len() > 1 {
        Some("a number has no sign")
    } else if has_empty_cell(fault.line) {
        Some("an empty cell before it moved it to the left")
    } else {
        None
    }
}

/// Whether words stand where the line's numbers should: of a BED line its start and end.
fn is_heading(fault: &Fault) -> bool {
    let in_letters = |at: usize| {
        let word = fault.words.get(at).map_or(&[][..], |(_, word)| word);
        let letter = |byte: &u8| byte.is_ascii_alphabetic() || matches!(byte, b'_' | b'.');
        word.iter().all(letter) && word.iter().any(u8::is_ascii_alphabetic)
    };
    match fault.kind {
        Kind::Bed | Kind::Psl => in_letters(1) && in_letters(2),
        Kind::Chain => false,
    }
}

/// Digits, with a power of ten after `E`.
fn is_power(word: &[u8]) -> bool {
    let mut parts = word.split(|byte| matches!(byte, b'e' | b'E'));
    let number = |part: Option<&[u8]>| {
        part.is_some_and(|part| {
            part.iter().any(u8::is_ascii_digit)
                && part
                    .iter()
                    .all(|byte| byte.is_ascii_digit() || b"+-.,".contains(byte))
        })
    };
    number(parts.next()) && number(parts.next()) && parts.next().is_none()
}

/// 7: the rule of the end that the place stands at.
fn span_hint(fault: &Fault) -> Option<&'static str> {
    match fault.field()?.name {
        "chromEnd" => Some("chromStart must be below chromEnd"),
        "thickStart" | "thickEnd" => {
            Some("chromStart, thickStart, thickEnd and chromEnd must not fall, in this order")
        }
        "qEnd" => Some("qStart must be below qEnd, and qEnd at most qSize"),
        "tEnd" => Some("tStart must be below tEnd, and tEnd at most tSize"),
        _ => None,
    }
}

/// 8: how many items there are, and how many there should be.
fn list_hint(fault: &Fault) -> Option<String> {
    let field = fault.field()?;
    let word = fault.word();
    let listed = match word.strip_suffix(b",") {
        Some(front) if field.name != "itemRgb" => front,
        _ => word,
    };
    let items = listed.split(|byte| *byte == b',').count();
    let s = if items == 1 { "" } else { "s" };
    if field.name == "itemRgb" {
        return Some(format!("{items} number{s}, and a colour has three"));
    }
    let columns = crate::fields::of_line(fault.kind, fault.first_line);
    let at = columns
        .iter()
        .position(|column| column.name == "blockCount")?;
    let count = String::from_utf8_lossy(fault.words.get(at)?.1);
    let joined = match count.parse::<usize>() {
        Ok(count) if items < count => {
            "; a spreadsheet may have taken a comma for one between thousands"
        }
        _ => "",
    };
    Some(format!(
        "{items} number{s}, and blockCount is {count}{joined}"
    ))
}

/// 9: the blocks' rules.
fn block_rule(kind: Kind) -> &'static str {
    match kind {
        Kind::Bed => {
            "the first block starts at 0, none starts before the end of the one before it, and the \
             last ends at chromEnd - chromStart"
        }
        Kind::Psl => {
            "on each side the first block starts and the last ends where the span does, and none \
             starts before the end of the one before it; with `-`, qStarts count on the reversed query"
        }
        Kind::Chain => {
            "sizes and dt must add up to tEnd - tStart, sizes and dq to qEnd - qStart"
        }
    }
}

/// 10: the house rule of a PSL line's counts.
const COUNT_RULE: &str =
    "matches, misMatches, repMatches and nCount must add up to the block sizes, \
     and each pair of insert columns must count the gaps on its side and their bases";
