//! Checking and formatting a text of any kind.

use crate::answer::{taken, Refusal};
use crate::sys;

/// Most bytes in a text.
pub const TEXT_LIMIT: usize = 65_536;
/// Most blocks in a record.
pub const BLOCK_LIMIT: usize = 512;

/// The kinds of text.
#[derive(Clone, Copy, Debug, PartialEq, Eq)]
pub enum Kind {
    Bed,
    Psl,
    Chain,
}

impl Kind {
    /// Its number in the library's entries.
    pub fn number(self) -> u64 {
        match self {
            Kind::Bed => 1,
            Kind::Psl => 2,
            Kind::Chain => 3,
        }
    }
}

/// Checks a text; answers its number of blocks.
pub fn check(kind: Kind, text: &[u8]) -> Result<usize, Refusal> {
    Ok(taken(sys::check(kind.number(), text))? as usize)
}

/// The standard text of a text.
pub fn format(kind: Kind, text: &[u8]) -> Result<Vec<u8>, Refusal> {
    Ok(Room::new().format(kind, text)?.to_vec())
}

/// Room for what the entries write, to be used for text after text.
pub struct Room {
    bytes: Vec<u8>,
}

impl Room {
    /// Room for the longest text, and for the numbers of any record.
    pub fn new() -> Room {
        Room {
            bytes: vec![0; TEXT_LIMIT],
        }
    }

    /// The standard text of a text.
    pub fn format(&mut self, kind: Kind, text: &[u8]) -> Result<&[u8], Refusal> {
        self.written(|out| sys::format(kind.number(), text, out))
    }

    /// The standard text of a chain turned: target and query exchange sides.
    pub fn turn(&mut self, chain: &[u8]) -> Result<&[u8], Refusal> {
        self.written(|out| sys::turn(chain, out))
    }

    /// The bytes that an entry counts.
    fn written(&mut self, entry: impl FnOnce(&mut [u8]) -> u64) -> Result<&[u8], Refusal> {
        let length = taken(entry(&mut self.bytes))? as usize;
        Ok(self.bytes.get(..length).unwrap_or(&self.bytes))
    }

    /// The bytes themselves, for an entry that counts something else.
    pub(crate) fn lent(&mut self) -> &mut [u8] {
        &mut self.bytes
    }
}

impl Default for Room {
    fn default() -> Room {
        Room::new()
    }
}
