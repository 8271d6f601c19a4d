//! Standard text. It is written from its end to its front, so that a number's
//! digits come in the order in which division gives them.

use super::words::{Answer, Refused};
use super::TEXT_LIMIT;

/// Working room for one text, used again for each. No record's text is longer.
pub type Bytes = [u8; TEXT_LIMIT];

/// The two digits of each number below 100.
const PAIRS: [[u8; 2]; 100] = {
    let mut pairs = [[0; 2]; 100];
    let mut value = 0;
    while value < 100 {
        pairs[value] = [b'0' + (value / 10) as u8, b'0' + (value % 10) as u8];
        value += 1;
    }
    pairs
};

pub struct Standard<'r> {
    room: &'r mut Bytes,
    /// Where what is written so far begins.
    at: usize,
    /// What stands behind the word that is written next, and behind those before it.
    behind: u8,
    between: u8,
}

impl Standard<'_> {
    pub fn new(room: &mut Bytes) -> Standard<'_> {
        Standard {
            room,
            at: TEXT_LIMIT,
            behind: b'\n',
            between: b'\n',
        }
    }

    /// Puts a line before what is written, with this between its words.
    #[inline(always)]
    pub fn line(&mut self, between: u8) {
        (self.behind, self.between) = (b'\n', between);
    }

    #[inline(always)]
    fn end_word(&mut self) {
        self.bytes(&[self.behind]);
        self.behind = self.between;
    }

    #[inline(always)]
    pub fn word(&mut self, word: &[u8]) {
        self.end_word();
        self.bytes(word);
    }

    #[inline(always)]
    pub fn number(&mut self, value: u64) {
        self.end_word();
        self.digits(value);
    }

    /// A comma list, given from its end.
    #[inline(always)]
    pub fn list(&mut self, numbers: impl Iterator<Item = u64>) {
        self.end_word();
        for number in numbers {
            self.bytes(b",");
            self.digits(number);
        }
    }

    #[inline(always)]
    pub fn bytes(&mut self, bytes: &[u8]) {
        let start = self.at - bytes.len();
        self.room[start..self.at].copy_from_slice(bytes);
        self.at = start;
    }

    #[inline(always)]
    pub fn digits(&mut self, mut value: u64) {
        while value >= 100 {
            self.bytes(&PAIRS[(value % 100) as usize]);
            value /= 100;
        }
        let pair = &PAIRS[value as usize];
        self.bytes(if value < 10 { &pair[1..] } else { pair });
    }

    /// Copies the text to the lent bytes, given room; answers its length.
    pub fn hand_over(self, lent: &mut [u8], text_end: usize) -> Answer<usize> {
        let text = &self.room[self.at..];
        match lent.get_mut(..text.len()) {
            Some(front) => {
                front.copy_from_slice(text);
                Ok(text.len())
            }
            None => Err(Refused::new(11, text_end)),
        }
    }
}
