//! A refusal in one line: where it stands, what it means, the word at fault.

use crate::fields::{self, Field};
use crate::hints;
use crate::text::Text;
use tenderchock::{Kind, Refusal};

/// Most bytes of a word that are shown.
const SHOWN: usize = 40;

/// The line of a text that a refusal points into, taken apart.
pub struct Fault<'t> {
    pub kind: Kind,
    pub number: u8,
    /// Whether it is the text's first line.
    pub first_line: bool,
    /// Whether the file holds no text.
    pub no_text: bool,
    pub line: &'t [u8],
    /// The place within the line.
    pub place: usize,
    /// The line's words, and where each starts.
    pub words: Vec<(usize, &'t [u8])>,
}

impl<'t> Fault<'t> {
    pub fn new(kind: Kind, text: &Text<'t>, refusal: Refusal) -> Fault<'t> {
        let (line, place) = text.line_at(refusal.place);
        Fault {
            kind,
            number: refusal.number,
            first_line: text.in_first_line(refusal.place),
            no_text: text.is_empty(),
            line,
            place,
            words: words(line),
        }
    }

    /// Which word the place stands in, or just after.
    fn at(&self) -> Option<usize> {
        let holds = |(start, word): &(usize, &[u8])| {
            *start <= self.place && self.place <= start + word.len()
        };
        self.words.iter().position(holds)
    }

    /// The word that the place stands in; empty if there is none.
    pub fn word(&self) -> &'t [u8] {
        self.at().map_or(&[], |at| self.words[at].1)
    }

    /// The column that the place stands in.
    pub fn field(&self) -> Option<Field> {
        let columns = fields::of_line(self.kind, self.first_line);
        self.at().and_then(|at| columns.get(at)).copied()
    }

    /// The item of a comma list that the place stands in, if the column is a list.
    pub fn item(&self) -> &'t [u8] {
        let is_list = self
            .field()
            .is_some_and(|field| field.holds.contains("list"));
        let from = self.line.get(self.place..).unwrap_or_default();
        let ends = |byte: &u8| matches!(byte, b',' | b' ' | b'\t');
        match is_list {
            true => &from[..from.iter().position(ends).unwrap_or(from.len())],
            false => self.word(),
        }
    }

    /// What is at fault, in words; nothing where the number says all.
    fn what(&self) -> String {
        match self.number {
            2 => self.word_count(),
            3 => hints::byte_named(self.line.get(self.place).copied().unwrap_or(0)),
            4 | 5 => self.shown(self.item()),
            6..=8 => self.shown(self.word()),
            _ => String::new(),
        }
    }

    fn word_count(&self) -> String {
        let wanted = fields::words_wanted(self.kind, self.first_line);
        let count = self.words.len();
        let s = if count == 1 { "" } else { "s" };
        match self.no_text {
            true => "there is no text".to_string(),
            false => format!("{count} word{s} here, and {wanted}"),
        }
    }

    fn shown(&self, word: &[u8]) -> String {
        match self.field() {
            Some(field) => format!("{} in {}", quoted(word), field.name),
            None => quoted(word),
        }
    }
}

/// A refusal in words.
pub struct Told {
    /// Its line in the file, and its column, from 1.
    pub line: u64,
    pub column: usize,
    pub number: u8,
    pub meaning: &'static str,
    /// What is at fault, and what may lie behind it; empty if nothing is known.
    pub fault: String,
    pub hint: String,
}

impl Told {
    pub fn new(kind: Kind, text: &Text, refusal: Refusal) -> Told {
        let (line, column) = text.locate(refusal.place);
        let fault = Fault::new(kind, text, refusal);
        Told {
            line,
            column,
            number: refusal.number,
            meaning: refusal.meaning(),
            fault: fault.what(),
            hint: hints::hint(&fault).unwrap_or_default(),
        }
    }

    /// One line for a reader, without a line feed.
    pub fn sentence(&self, file: &str) -> String {
        let mut told = format!(
            "{file}:{}:{}: refused by {}: {}",
            self.line, self.column, self.number, self.meaning
        );
        if !self.fault.is_empty() {
            told += &format!(": {}", self.fault);
        }
        if !self.hint.is_empty() {
            told += &format!(" (hint: {})", self.hint);
        }
        told
    }

    /// The columns of ROW_HEADING, parted by tabs.
    pub fn row(&self, file: &str) -> String {
        row(
            file,
            self.line,
            self.column,
            self.number,
            [self.meaning, &self.fault, &self.hint],
        )
    }
}

/// What the columns of a row hold; a note has the number 0.
pub const ROW_HEADING: &str = "file\tline\tcolumn\tnumber\tmeaning\tfault\thint";

pub fn row(file: &str, line: u64, column: usize, number: u8, words: [&str; 3]) -> String {
    let file = file.replace(['\t', '\n', '\r'], "?");
    format!("{file}\t{line}\t{column}\t{number}\t{}", words.join("\t"))
}

/// A word between quotation marks; odd bytes as `\x..`, and long words cut.
pub fn quoted(word: &[u8]) -> String {
    let shown: String = word.iter().take(SHOWN).map(|byte| spelt(*byte)).collect();
    let cut = if word.len() > SHOWN { "..." } else { "" };
    format!("\"{shown}{cut}\"")
}

fn spelt(byte: u8) -> String {
    match byte {
        32..=126 => char::from(byte).to_string(),
        _ => format!("\\x{byte:02X}"),
    }
}

/// The words of a line, and where each starts.
pub fn words(line: &[u8]) -> Vec<(usize, &[u8])> {
    let mut start = 0;
    let mut words = Vec::new();
    for word in line.split(|byte| matches!(byte, b' ' | b'\t')) {
        if !word.is_empty() {
            words.push((start, word));
        }
        start += word.len() + 1;
    }
    words
}
