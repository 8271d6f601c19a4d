//! One text of a file. It keeps the lines that it stands in, so that places can be told.

use tenderchock::{Refusal, TEXT_LIMIT};

/// One text, without a line feed at its end.
#[derive(Clone, Copy)]
pub struct Text<'t> {
    pub bytes: &'t [u8],
    /// For each line: where it starts in the text, and its number in the file.
    pub lines: &'t [(usize, u64)],
    /// A refusal that stands before any of the library's.
    pub fault: Option<Refusal>,
}

impl<'t> Text<'t> {
    /// What the library says of the text, unless it is refused already.
    pub fn judged<T>(
        &self,
        judge: impl FnOnce(&'t [u8]) -> Result<T, Refusal>,
    ) -> Result<T, Refusal> {
        match self.fault {
            Some(refusal) => Err(refusal),
            None => judge(self.bytes),
        }
    }

    /// The file's line that a place stands in, and the place's column, from 1.
    pub fn locate(&self, place: usize) -> (u64, usize) {
        let (start, number) = self.line_of(place);
        (number, place.saturating_sub(start).saturating_add(1))
    }

    /// The bytes of the line that a place stands in, and the place within it.
    pub fn line_at(&self, place: usize) -> (&'t [u8], usize) {
        let (start, _) = self.line_of(place);
        let from = self.bytes.get(start..).unwrap_or_default();
        let length = from
            .iter()
            .position(|byte| *byte == b'\n')
            .unwrap_or(from.len());
        (&from[..length], place.saturating_sub(start))
    }

    /// Whether a place stands in the text's first line.
    pub fn in_first_line(&self, place: usize) -> bool {
        self.line_of(place).0 == 0
    }

    fn line_of(&self, place: usize) -> (usize, u64) {
        let started = |line: &&(usize, u64)| line.0 <= place;
        self.lines
            .iter()
            .rev()
            .find(started)
            .copied()
            .unwrap_or((0, 1))
    }

    /// Whether it has no line at all.
    pub fn is_empty(&self) -> bool {
        self.lines.is_empty()
    }
}

/// A text while it is read, line by line.
#[derive(Default)]
pub struct Draft {
    bytes: Vec<u8>,
    lines: Vec<(usize, u64)>,
    fault: Option<Refusal>,
}

impl Draft {
    pub fn text(&self) -> Text<'_> {
        Text {
            bytes: &self.bytes,
            lines: &self.lines,
            fault: self.fault,
        }
    }

    pub fn clear(&mut self) {
        self.bytes.clear();
        self.lines.clear();
        self.fault = None;
    }

    /// Refuses the text for a place in the line that is added next: a bad fixed word.
    pub fn refuse_next(&mut self, place: usize) {
        let start = match self.is_empty() {
            true => 0,
            false => self.bytes.len() + 1,
        };
        if start <= TEXT_LIMIT {
            let place = start + place;
            self.fault.get_or_insert(Refusal { number: 6, place });
        }
    }

    pub fn is_empty(&self) -> bool {
        self.lines.is_empty()
    }

    /// Adds a line. Past the text limit nothing is kept: the text is too long already.
    pub fn add(&mut self, number: u64, line: &[u8]) {
        if self.bytes.len() > TEXT_LIMIT {
            return;
        }
        if !self.is_empty() {
            self.bytes.push(b'\n');
        }
        self.lines.push((self.bytes.len(), number));
        self.bytes.extend_from_slice(line);
    }
}
