//! The texts of a file: the lines of a BED or PSL file, the chains of a chain file.

use std::io::{self, BufRead, BufReader, Read};

use crate::passing::{is_blank, passing, Passing};
use crate::source::{shows_foreign, Source};
use crate::text::{Draft, Text};
use tenderchock::{Kind, TEXT_LIMIT};

/// What comes next in a file.
pub enum Item<'t> {
    Text(Text<'t>),
    PassedOver(PassedOver<'t>),
}

/// A line that belongs to no text.
pub struct PassedOver<'t> {
    pub number: u64,
    pub line: &'t [u8],
    /// Whether it may be a record that somebody took out.
    pub noted: bool,
}

/// The texts of a file, one after the other, and the lines passed over among them.
pub struct Texts<R> {
    source: R,
    kind: Kind,
    line: Vec<u8>,
    text: Draft,
    /// Whether the text's lines go on behind a line that was passed over.
    open: bool,
    /// Whether the line is read already, and belongs to the next text.
    held: bool,
    /// Whether there was a text.
    any: bool,
    /// Whether the file is no text, or one in UTF-16.
    pub foreign: bool,
    /// Lines read so far.
    pub lines: u64,
    /// Lines passed over so far.
    pub passed_over: u64,
}

/// The texts of an opened input.
pub type SourceTexts = Texts<BufReader<Box<dyn Read>>>;

impl SourceTexts {
    pub fn of(source: Source, kind: Kind) -> io::Result<SourceTexts> {
        let bytes = source.bytes()?;
        let mut texts = Texts::new(bytes.reader, kind);
        texts.foreign = bytes.foreign;
        Ok(texts)
    }
}

/// What a step through the file came to.
enum Found {
    Text,
    PassedOver { noted: bool },
    End,
}

impl<R: BufRead> Texts<R> {
    pub fn new(source: R, kind: Kind) -> Texts<R> {
        Texts {
            source,
            kind,
            line: Vec::new(),
            text: Draft::default(),
            open: false,
            held: false,
            any: false,
            foreign: false,
            lines: 0,
            passed_over: 0,
        }
    }

    /// The next text or line passed over. A file that holds no text gives an empty
    /// one at its end, to be refused; one that is foreign gives the line that shows
    /// it, and nothing more.
    pub fn next(&mut self) -> io::Result<Option<Item<'_>>> {
        if !self.open {
            self.text.clear();
        }
        let found = match self.kind {
            _ if self.foreign => self.foreign_line()?,
            Kind::Chain => self.next_chain()?,
            _ => self.next_line()?,
        };
        self.open = matches!(found, Found::PassedOver { .. });
        Ok(match found {
            Found::PassedOver { noted } => Some(Item::PassedOver(PassedOver {
                number: self.lines,
                line: &self.line,
                noted,
            })),
            Found::End if self.any => None,
            Found::Text | Found::End => {
                self.any = true;
                Some(Item::Text(self.text.text()))
            }
        })
    }

    /// The line that shows that the file is no text; then none.
    fn foreign_line(&mut self) -> io::Result<Found> {
        while !self.any && self.read_line()? {
            if shows_foreign(&self.line, self.lines == 1) {
                self.add_line();
                return Ok(Found::Text);
            }
        }
        Ok(Found::End)
    }

    /// The next line.
    fn next_line(&mut self) -> io::Result<Found> {
        if !self.read_line()? {
            return Ok(Found::End);
        }
        Ok(match self.pass_over() {
            Some(noted) => Found::PassedOver { noted },
            None => {
                self.add_line();
                Found::Text
            }
        })
    }

    /// The lines up to a blank one, the next header or the file's end.
    fn next_chain(&mut self) -> io::Result<Found> {
        while self.held || self.read_line()? {
            self.held = false;
            match part(&self.line) {
                Part::Blank if self.text.is_empty() => (),
                Part::Blank => return Ok(Found::Text),
                Part::BlankReturn => {
                    self.add_line();
                    return Ok(Found::Text);
                }
                Part::Header if !self.text.is_empty() => {
                    self.held = true;
                    return Ok(Found::Text);
                }
                Part::Header | Part::Words => match self.pass_over() {
                    Some(noted) => return Ok(Found::PassedOver { noted }),
                    None => self.add_line(),
                },
            }
        }
        Ok(match self.text.is_empty() {
            true => Found::End,
            false => Found::Text,
        })
    }

    fn add_line(&mut self) {
        self.text.add(self.lines, &self.line);
    }

    /// Counts a line that is none of the format's; says whether it is noted. A line
    /// that is read gives nothing.
    fn pass_over(&mut self) -> Option<bool> {
        let noted = match passing(self.kind, &self.line) {
            Passing::Read => return None,
            Passing::CellError(place) => {
                self.text.refuse_next(place);
                return None;
            }
            Passing::Noted => true,
            Passing::Over => false,
        };
        self.passed_over += 1;
        Some(noted)
    }

    /// Reads a line without its line feed; of one over the text limit, only enough
    /// to be refused for its length is kept. False at the file's end.
    fn read_line(&mut self) -> io::Result<bool> {
        self.line.clear();
        let most = TEXT_LIMIT + 1;
        let kept = (&mut self.source)
            .take(most as u64)
            .read_until(b'\n', &mut self.line)?;
        if self.line.last() == Some(&b'\n') {
            self.line.pop();
        } else if kept == most {
            self.skip_line()?;
        }
        self.lines += u64::from(kept > 0);
        Ok(kept > 0)
    }

    /// Skips what is left of a line.
    fn skip_line(&mut self) -> io::Result<()> {
        loop {
            let (length, ended) = match self.source.fill_buf() {
                Err(error) if error.kind() == io::ErrorKind::Interrupted => continue,
                Err(error) => return Err(error),
                Ok(bytes) => match bytes.iter().position(|byte| *byte == b'\n') {
                    Some(at) => (at + 1, true),
                    None => (bytes.len(), bytes.is_empty()),
                },
            };
            self.source.consume(length);
            if ended {
                return Ok(());
            }
        }
    }
}

/// How a line parts the chains of a file.
enum Part {
    /// Blanks only, or nothing: a chain ends.
    Blank,
    /// Blanks and carriage returns: a chain ends, and the line belongs to it, so
    /// that the carriage return is refused.
    BlankReturn,
    /// The first word is `chain`: a chain begins.
    Header,
    Words,
}

fn part(line: &[u8]) -> Part {
    let mut words = line.split(is_blank).filter(|word| !word.is_empty());
    match words.next() {
        None => Part::Blank,
        Some(b"chain") => Part::Header,
        _ if line.iter().all(|byte| is_blank(byte) || *byte == b'\r') => Part::BlankReturn,
        _ => Part::Words,
    }
}

#[cfg(test)]
mod tests {
    use super::*;
    use tenderchock::Refusal;

    fn texts(kind: Kind, file: &[u8]) -> (Vec<Vec<u8>>, u64) {
        let mut texts = Texts::new(file, kind);
        let mut all = Vec::new();
        while let Some(item) = texts.next().expect("bytes can be read") {
            if let Item::Text(text) = item {
                all.push(text.bytes.to_vec());
            }
        }
        (all, texts.passed_over)
    }

    /// What is to be known of the first text of a file.
    fn of_first<T>(kind: Kind, file: &[u8], known: impl Fn(&Text) -> T) -> T {
        let mut texts = Texts::new(file, kind);
        loop {
            match texts.next().expect("bytes can be read") {
                Some(Item::Text(text)) => return known(&text),
                Some(Item::PassedOver(_)) => (),
                None => panic!("no text"),
            }
        }
    }

    #[test]
    fn lines_are_texts() {
        let (lines, passed) = texts(Kind::Bed, b"# x\ntrack y\nc 1 2\n\nbrowser\ntracks 3 4");
        assert_eq!(lines, [&b"c 1 2"[..], b"", b"tracks 3 4"]);
        assert_eq!(passed, 3);
    }

    #[test]
    fn blank_lines_part_chains() {
        let (chains, passed) = texts(Kind::Chain, b"\n#x\na\nb\n \t\n\nc\n# y\nd\n\n");
        assert_eq!(chains, [&b"a\nb"[..], b"c\nd"]);
        assert_eq!(passed, 2);
        assert_eq!(texts(Kind::Chain, b"a\n\r\nb\n").0, [&b"a\n\r"[..], b"b"]);
    }

    #[test]
    fn a_header_begins_a_chain() {
        let (chains, passed) = texts(
            Kind::Chain,
            b"chain a\n1\n# x\nchain b\n2\n\n chain c\nchains",
        );
        assert_eq!(
            chains,
            [&b"chain a\n1"[..], b"chain b\n2", b" chain c\nchains"]
        );
        assert_eq!(passed, 1);
    }

    #[test]
    fn a_cell_error_is_refused() {
        let six_at = |place| Err(Refusal { number: 6, place });
        let judged = |text: &Text| text.judged(|_| Ok(()));
        assert_eq!(of_first(Kind::Bed, b"\t#N/A 1 2\n", judged), six_at(1));
        assert_eq!(
            of_first(Kind::Chain, b"chain\n1\n #REF!", judged),
            six_at(9)
        );
        assert_eq!(of_first(Kind::Bed, b"chr1 1 2", judged), Ok(()));
    }

    #[test]
    fn lines_passed_over_come_in_their_order() {
        let file = b"# x\nchain a\n#b 1 2\n3\n# y\n";
        let mut texts = Texts::new(&file[..], Kind::Chain);
        let mut seen = Vec::new();
        while let Some(item) = texts.next().expect("bytes can be read") {
            seen.push(match item {
                Item::Text(text) => format!("{}", text.bytes.escape_ascii()),
                Item::PassedOver(passed) => format!("{} {}", passed.number, passed.noted),
            });
        }
        assert_eq!(seen, ["1 false", "3 true", "5 false", "chain a\\n3"]);
    }

    #[test]
    fn a_file_without_a_text_gives_an_empty_one() {
        for file in [&b""[..], b"# only\n"] {
            assert_eq!(texts(Kind::Psl, file).0, [b""]);
            assert_eq!(texts(Kind::Chain, file).0, [b""]);
        }
        assert_eq!(texts(Kind::Chain, b"\n \n").0, [b""]);
    }

    #[test]
    fn places_are_told_by_line_and_column() {
        of_first(Kind::Chain, b"# x\nab\n# y\ncd", |text| {
            assert_eq!(text.locate(0), (2, 1));
            assert_eq!(text.locate(2), (2, 3));
            assert_eq!(text.locate(3), (4, 1));
            assert_eq!(text.locate(5), (4, 3));
            assert_eq!(text.line_at(4), (&b"cd"[..], 1));
        });
    }

    #[test]
    fn a_long_line_is_cut_past_the_limit() {
        let mut file = vec![b'a'; 200_000];
        file.extend(b"\nb");
        let (lines, _) = texts(Kind::Bed, &file);
        assert_eq!(lines[0].len(), TEXT_LIMIT + 1);
        assert_eq!(lines[1], b"b");
        let (chains, _) = texts(Kind::Chain, &file.repeat(3));
        assert!(chains.len() == 1 && chains[0].len() > TEXT_LIMIT);
    }
}
