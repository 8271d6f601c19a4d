//! An input that is opened, with its first bytes read; it is unpacked, if it has to
//! be, when its turn comes.

use std::fs::File;
use std::io::{self, BufReader, Cursor, Read};

use crate::args::Input;
use crate::gz;
use crate::outcome::Trouble;
use crate::same_file::{standard_input, Identity, Use};

/// How many first bytes are looked at.
const FIRST: usize = 4096;

/// An opened input.
pub struct Source {
    pub identity: Identity,
    file: File,
    /// What is read of the file already.
    first: Vec<u8>,
    /// Whether the file can be read again from its start.
    again: bool,
}

/// The bytes of an input; compressed ones are unpacked.
pub struct Bytes {
    pub reader: BufReader<Box<dyn Read>>,
    /// Whether the first bytes show that it is no text, or one in UTF-16.
    pub foreign: bool,
}

impl Source {
    /// Opens an input; `-` is standard input.
    pub fn open(input: &Input) -> Result<Source, Trouble> {
        opened(input).map_err(|error| Trouble::Input(input.name(), error))
    }

    pub fn used(&self, role: &str, input: &Input) -> Use {
        Use::new(role, &input.path, &self.identity)
    }

    /// What is to be read.
    pub fn bytes(self) -> io::Result<Bytes> {
        let Source { file, first, .. } = self;
        match gz::begins(&first) {
            false => Ok(Bytes::new(first, Box::new(file))),
            true => {
                let mut unpacked = gz::unpack(file, first, self.again)?;
                let first = first_bytes(&mut unpacked)?;
                Ok(Bytes::new(first, Box::new(unpacked)))
            }
        }
    }
}

impl Bytes {
    fn new(first: Vec<u8>, rest: Box<dyn Read>) -> Bytes {
        let foreign = is_foreign(&first);
        let all: Box<dyn Read> = Box::new(Cursor::new(first).chain(rest));
        Bytes {
            reader: BufReader::with_capacity(1 << 16, all),
            foreign,
        }
    }
}

fn opened(input: &Input) -> io::Result<Source> {
    let mut file = match input.is_standard() {
        true => standard_input()?,
        false => File::open(&input.path)?,
    };
    let known = file.metadata()?;
    Ok(Source {
        identity: Identity::of(&known),
        first: first_bytes(&mut file)?,
        file,
        again: known.is_file() && !input.is_standard(),
    })
}

fn first_bytes(file: &mut impl Read) -> io::Result<Vec<u8>> {
    let mut first = Vec::with_capacity(FIRST);
    file.take(FIRST as u64).read_to_end(&mut first)?;
    Ok(first)
}

/// UTF-16 with its mark, a zero byte, or a file that is compressed twice.
fn is_foreign(first: &[u8]) -> bool {
    is_marked(first) || first.contains(&0) || gz::begins(first)
}

fn is_marked(first: &[u8]) -> bool {
    first.starts_with(b"\xFF\xFE") || first.starts_with(b"\xFE\xFF")
}

/// Whether a line shows that its file is foreign.
pub fn shows_foreign(line: &[u8], first_line: bool) -> bool {
    line.contains(&0) || (first_line && (is_marked(line) || gz::begins(line)))
}
