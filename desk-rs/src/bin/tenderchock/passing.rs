//! Lines that belong to no format: comments, `track` and `browser`. A line is passed
//! over only if nothing else can be meant by it.

use tenderchock::{Kind, Refusal};

/// What a spreadsheet leaves in a cell that it can't work out.
const CELL_ERRORS: [&[u8]; 7] = [
    b"#N/A", b"#REF!", b"#NAME?", b"#VALUE!", b"#DIV/0!", b"#NUM!", b"#NULL!",
];

/// What is done with a line.
#[derive(Clone, Copy, Debug, PartialEq, Eq)]
pub enum Passing {
    /// It is read.
    Read,
    /// It is passed over.
    Over,
    /// It is passed over, and may be a record that somebody took out.
    Noted,
    /// It is refused: a spreadsheet's error at this place.
    CellError(usize),
}

pub fn passing(kind: Kind, line: &[u8]) -> Passing {
    if !matches!(line.first(), Some(b'#' | b't' | b'b' | b' ' | b'\t')) {
        return Passing::Read;
    }
    let mut words = line.split(is_blank).filter(|word| !word.is_empty());
    let first = words.next().unwrap_or_default();
    if first.starts_with(b"#") && CELL_ERRORS.contains(&first) {
        return Passing::CellError(line.iter().take_while(|byte| is_blank(byte)).count());
    }
    let comment = line.starts_with(b"#");
    let other = matches!(first, b"track" | b"browser") && line.starts_with(first);
    if !(comment || other) || !has_allowed_bytes(kind, line) {
        return Passing::Read;
    }
    let mut number = || {
        words
            .next()
            .is_some_and(|word| word.iter().all(u8::is_ascii_digit))
    };
    match comment && number() && number() {
        true => Passing::Noted,
        false => Passing::Over,
    }
}

/// The library looks at length and bytes before anything else.
fn has_allowed_bytes(kind: Kind, line: &[u8]) -> bool {
    let refused = |refusal: Refusal| matches!(refusal.number, 1 | 3);
    !tenderchock::check(kind, line).is_err_and(refused)
}

/// What parts the words of a line.
pub fn is_blank(byte: &u8) -> bool {
    matches!(byte, b' ' | b'\t')
}

#[cfg(test)]
mod tests {
    use super::*;

    #[test]
    fn only_plain_comments_are_passed_over() {
        for (line, wanted) in [
            (&b"# x"[..], Passing::Over),
            (b"track\tname=x", Passing::Over),
            (b"browser", Passing::Over),
            (b"tracks 1 2", Passing::Read),
            (b"chr1 1 2", Passing::Read),
            (b"# x\rchr1 1 2", Passing::Read),
            (b"# caf\xC3\xA9", Passing::Read),
            (b"#chr1\t10\t20\tx", Passing::Noted),
            (b"#chrom\tstart\tend", Passing::Over),
            (b"#N/A\t10\t20", Passing::CellError(0)),
            (b" \t#REF! 10 20", Passing::CellError(2)),
            (b"#N/AX 10 20", Passing::Noted),
        ] {
            assert_eq!(passing(Kind::Bed, line), wanted, "{}", line.escape_ascii());
        }
    }
}
