//! Notes: what is odd about a line that is accepted.

use crate::explain;
use crate::passing::is_blank;
use tenderchock::Kind;

/// A place in a line, and what is odd there.
#[derive(Debug, PartialEq, Eq)]
pub struct Note {
    pub place: usize,
    pub told: String,
}

/// The notes on an accepted text: on its names, and on the cells of each line.
pub fn of_text(kind: Kind, text: &[u8]) -> Vec<Note> {
    match kind {
        Kind::Chain => of_lines(text),
        _ if is_plain(text) => Vec::new(),
        _ => of_line(kind, text, true),
    }
}

/// A chain's header has its names; its block lines have none.
fn of_lines(text: &[u8]) -> Vec<Note> {
    let (mut notes, mut start) = (Vec::new(), 0);
    for line in text.split(|byte| *byte == b'\n') {
        if !is_plain(line) {
            let found = of_line(Kind::Chain, line, start == 0);
            notes.extend(found.into_iter().map(|note| Note {
                place: start + note.place,
                told: note.told,
            }));
        }
        start += line.len() + 1;
    }
    notes
}

/// Whether a line has nothing that a note could be about; one pass, words are not parted.
fn is_plain(line: &[u8]) -> bool {
    let (mut tab, mut space, mut before) = (false, false, b'\t');
    for byte in line {
        match byte {
            b'\t' if before == b'\t' => return false,
            b'-' if !is_blank(&before) => return false,
            b'"' | b'/' => return false,
            b'\t' => tab = true,
            b' ' => space = true,
            _ => (),
        }
        before = *byte;
    }
    before != b'\t' && !(tab && space)
}

fn of_line(kind: Kind, line: &[u8], named: bool) -> Vec<Note> {
    let names: &[usize] = match kind {
        _ if !named => &[],
        Kind::Bed => &[0, 3],
        Kind::Psl => &[9, 13],
        Kind::Chain => &[2, 7],
    };
    let words = explain::words(line);
    let odd_name = |at: &usize| {
        let (place, name) = *words.get(*at)?;
        let told = format!(
            "the name {} is accepted, and {}",
            explain::quoted(name),
            name_note(name)?
        );
        Some(Note { place, told })
    };
    let mut notes: Vec<Note> = names.iter().filter_map(odd_name).collect();
    let empty = "an empty cell; the words after it are read one column further left";
    let parted = "a blank inside a cell; the words after it are read one column further right";
    notes.extend(empty_cell(line).map(|place| note(place, empty)));
    notes.extend(parted_cell(line).map(|place| note(place, parted)));
    notes
}

fn note(place: usize, told: &str) -> Note {
    let told = told.to_string();
    Note { place, told }
}

/// Where the first cell without a word stands, in a line with tabs.
pub fn empty_cell(line: &[u8]) -> Option<usize> {
    let is_empty = |(_, cell): &(usize, &[u8])| cell.iter().all(is_blank);
    cells(line).find(is_empty).map(|(start, _)| start)
}

/// Where a blank parts two words of one cell, in a line with tabs.
fn parted_cell(line: &[u8]) -> Option<usize> {
    cells(line).find_map(|(start, cell)| {
        let words = explain::words(cell);
        let (place, first) = words.first().filter(|_| words.len() > 1)?;
        Some(start + place + first.len())
    })
}

/// The cells of a line, and where each starts; a line without tabs has none.
fn cells(line: &[u8]) -> impl Iterator<Item = (usize, &[u8])> {
    let mut start = 0;
    line.split(|byte| *byte == b'\t')
        .filter(|cell| cell.len() < line.len())
        .map(move |cell| {
            let at = start;
            start += cell.len() + 1;
            (at, cell)
        })
}

/// What is odd about a name that is accepted.
fn name_note(name: &[u8]) -> Option<&'static str> {
    if looks_like_date(name) {
        Some("looks like a date; spreadsheets make dates of names such as SEPT2")
    } else if name.contains(&b'"') {
        Some("holds quotation marks, which are part of it")
    } else {
        None
    }
}

/// Whether a spreadsheet may have made a date of a name such as SEPT2.
pub fn looks_like_date(word: &[u8]) -> bool {
    const MONTHS: [&[u8]; 13] = [
        b"jan", b"feb", b"mar", b"apr", b"may", b"jun", b"jul", b"aug", b"sep", b"sept", b"oct",
        b"nov", b"dec",
    ];
    let parts: Vec<&[u8]> = word.split(|byte| matches!(byte, b'-' | b'/')).collect();
    let is_month = |part: &&[u8]| MONTHS.contains(&&part.to_ascii_lowercase()[..]);
    let is_number =
        |part: &&[u8]| matches!(part.len(), 1 | 2 | 4) && part.iter().all(u8::is_ascii_digit);
    let months = parts.iter().filter(|part| is_month(part)).count();
    let numbers = parts.iter().filter(|part| is_number(part)).count();
    let years = parts
        .iter()
        .filter(|part| part.len() == 4 && is_number(part))
        .count();
    match parts.len() {
        2 => months == 1 && numbers == 1,
        3 => (months == 1 && numbers == 2) || (numbers == 3 && years == 1),
        _ => false,
    }
}

#[cfg(test)]
mod tests {
    use super::*;

    #[test]
    fn dates_are_told_from_names() {
        for date in [
            "2-Sep",
            "Sep-02",
            "1-MAR",
            "2006-09-02",
            "9/2/2006",
            "2-sept-2006",
            "Mar/01",
        ] {
            assert!(looks_like_date(date.as_bytes()), "{date}");
        }
        for name in [
            "", "-", "SEPT2", "exon-2", "chr1", "1-2", "12-34-56", "HLA-A", "Mar", "2-Sep-x", "///",
        ] {
            assert!(!looks_like_date(name.as_bytes()), "{name}");
        }
    }

    #[test]
    fn odd_cells_are_found() {
        let found = |kind: Kind, text: &[u8]| -> Vec<usize> {
            of_text(kind, text).iter().map(|note| note.place).collect()
        };
        let places = |line: &[u8]| found(Kind::Bed, line);
        assert_eq!(places(b"chr1\t10\t20\t\t960"), [11]);
        assert_eq!(places(b"chr1\t10\t20\tmy gene\t960"), [13]);
        assert_eq!(places(b"chr1\t10\t20\t"), [11]);
        assert_eq!(places(b"chr1\t10\t20\t \t960"), [11]);
        assert_eq!(places(b"\tchr1 10 20"), [0, 5]);
        assert_eq!(places(b"chr1 10  20 my"), [0; 0]);
        assert_eq!(places(b"chr1\t10\t20 "), [0; 0]);
        assert_eq!(places(b"chr1\t10\t20\tx\t0\t-"), [0; 0]);
        assert_eq!(places(b"chr1\t10\t20\t2-Sep"), [11]);
        let chain = b"chain 1 t 9 + 0 9 2-Sep 9 + 0 9 1\n4\t\t1\t1\n4";
        assert_eq!(found(Kind::Chain, chain), [18, 36]);
        assert_eq!(found(Kind::Chain, b"chain 1 t\n4\t1\t1\n4"), [0; 0]);
    }
}
