//! Lines of IN that are held for a while, so that a chain is read once for many of them.

use std::ops::Range;

use crate::text::Text;
use tenderchock::Refusal;

/// So many lines are held, or so many bytes and the rest of a line.
const MOST_LINES: usize = 4_096;
const MOST_BYTES: usize = 1 << 18;

/// A line of IN that waits for its turn.
pub enum Waiting<'w> {
    Text(Text<'w>),
    /// A line passed over that is to be noted, by its number.
    PassedOver(u64),
}

/// The lines that wait. Their bytes stand in one place, however long each of them is.
#[derive(Default)]
pub struct Window {
    bytes: Vec<u8>,
    lines: Vec<Line>,
}

enum Line {
    Text {
        bytes: Range<usize>,
        /// Where its line starts and the line's number; nothing for an empty file.
        line: Option<(usize, u64)>,
        fault: Option<Refusal>,
    },
    PassedOver(u64),
}

impl Window {
    /// Holds a text of at most one line.
    pub fn hold(&mut self, text: &Text) {
        let start = self.bytes.len();
        self.bytes.extend_from_slice(text.bytes);
        self.lines.push(Line::Text {
            bytes: start..self.bytes.len(),
            line: text.lines.first().copied(),
            fault: text.fault,
        });
    }

    /// Holds the number of a line passed over.
    pub fn hold_passed_over(&mut self, number: u64) {
        self.lines.push(Line::PassedOver(number));
    }

    pub fn is_full(&self) -> bool {
        self.lines.len() >= MOST_LINES || self.bytes.len() >= MOST_BYTES
    }

    /// The lines in their order.
    pub fn waiting(&self) -> impl Iterator<Item = Waiting<'_>> {
        self.lines.iter().map(|line| match line {
            Line::PassedOver(number) => Waiting::PassedOver(*number),
            Line::Text { bytes, line, fault } => Waiting::Text(Text {
                bytes: &self.bytes[bytes.clone()],
                lines: line.as_slice(),
                fault: *fault,
            }),
        })
    }

    pub fn clear(&mut self) {
        self.bytes.clear();
        self.lines.clear();
    }
}

#[cfg(test)]
mod tests {
    use super::*;
    use crate::input::{Item, Texts};
    use tenderchock::Kind;

    #[test]
    fn lines_wait_as_they_stand() {
        let mut texts = Texts::new(&b"c 1 2\n\n#c 1 2\n#N/A 3\nlast"[..], Kind::Bed);
        let mut window = Window::default();
        while let Some(item) = texts.next().expect("bytes can be read") {
            match item {
                Item::Text(text) => window.hold(&text),
                Item::PassedOver(passed) => window.hold_passed_over(passed.number),
            }
        }
        let told = |waiting| match waiting {
            Waiting::PassedOver(number) => format!("over {number}"),
            Waiting::Text(text) => {
                let refused = text.judged(|_| Ok(())).err();
                let number = refused.map_or(0, |refusal| refusal.number);
                let shown = text.bytes.escape_ascii();
                format!("{shown}: {number} in {:?}", text.locate(0))
            }
        };
        for _ in 0..2 {
            let all: Vec<String> = window.waiting().map(told).collect();
            let wanted = [
                "c 1 2: 0 in (1, 1)",
                ": 0 in (2, 1)",
                "over 3",
                "#N/A 3: 6 in (4, 1)",
                "last: 0 in (5, 1)",
            ];
            assert_eq!(all, wanted);
        }
        window.clear();
        assert!(window.waiting().next().is_none());
    }

    #[test]
    fn a_window_is_bounded_by_lines_and_by_bytes() {
        let long = vec![b'x'; MOST_BYTES / 8];
        for (bytes, most) in [(&b"c 1 2"[..], MOST_LINES), (&long[..], 8)] {
            let mut window = Window::default();
            let text = Text {
                bytes,
                lines: &[(0, 1)],
                fault: None,
            };
            while !window.is_full() {
                window.hold(&text);
            }
            assert_eq!(window.waiting().count(), most);
        }
    }
}
