//! A table of columns: how each word of a line is read, and its standard text.

use crate::ledger::{Answer, Strand, BLOCK_LIMIT, COORDINATE_LIMIT};
use crate::text::{self, Line, Part, Word};

/// The kind of one column.
#[derive(Clone, Copy, Debug)]
pub enum Column {
    /// A name.
    Name,
    /// A number from `least` to `most`.
    Number { least: u64, most: u64 },
    /// A strand, with or without `.`.
    Strand { dot: bool },
    /// A fixed word.
    Fixed(&'static str),
    /// BED's itemRgb.
    Colour,
    /// The number of blocks, which the lists after it must have as length.
    BlockCount,
    /// A comma list with one item for each block.
    List { least: u64, most: u64 },
}

impl Column {
    /// A coordinate or a PSL count.
    pub const COORDINATE: Column = Column::up_to(COORDINATE_LIMIT);
    /// The size of a sequence or of a block.
    pub const SIZE: Column = Column::Number {
        least: 1,
        most: COORDINATE_LIMIT,
    };
    /// The sizes of the blocks.
    pub const BLOCK_SIZES: Column = Column::List {
        least: 1,
        most: COORDINATE_LIMIT,
    };
    /// The starts of the blocks on one side.
    pub const BLOCK_STARTS: Column = Column::List {
        least: 0,
        most: COORDINATE_LIMIT,
    };

    /// A number from 0 to `most`.
    pub const fn up_to(most: u64) -> Column {
        Column::Number { least: 0, most }
    }

    fn read<'t>(self, word: &Word<'t>, blocks: Option<u64>) -> Answer<Value<'t>> {
        let bytes = word.bytes;
        Ok(match self {
            Column::Name => {
                text::name(bytes)?;
                Value::Name(*word)
            }
            Column::Number { least, most } => Value::Number(text::number(bytes, least, most)?),
            Column::Strand { dot } => Value::Strand(text::strand(bytes, dot)?),
            Column::Fixed(expected) => {
                text::fixed(bytes, expected)?;
                Value::Fixed(expected)
            }
            Column::Colour => Value::Colour(text::colour(bytes)?),
            Column::BlockCount => Value::Number(text::number(bytes, 1, BLOCK_LIMIT)?),
            Column::List { least, most } => {
                Value::List(text::list(bytes, least, most, true, blocks)?)
            }
        })
    }
}

/// What a word holds.
#[derive(Clone, Debug, PartialEq, Eq)]
pub enum Value<'t> {
    Name(Word<'t>),
    Number(u64),
    Strand(Strand),
    Fixed(&'static str),
    Colour([u64; 3]),
    List(Vec<u64>),
}

impl<'t> Value<'t> {
    /// A name to be written.
    pub fn name(bytes: &'t [u8]) -> Value<'t> {
        Value::Name(Word { start: 0, bytes })
    }

    /// The number of a number's column.
    pub fn number(&self) -> u64 {
        match self {
            Value::Number(number) => *number,
            _ => unreachable!("the table puts a number here"),
        }
    }

    /// The place of a name's column.
    pub fn part(&self) -> Part {
        match self {
            Value::Name(word) => word.part(),
            _ => unreachable!("the table puts a name here"),
        }
    }

    /// The strand of a strand's column.
    pub fn strand(&self) -> Strand {
        match self {
            Value::Strand(strand) => *strand,
            _ => unreachable!("the table puts a strand here"),
        }
    }

    /// The colour of itemRgb.
    pub fn colour(&self) -> [u64; 3] {
        match self {
            Value::Colour(colour) => *colour,
            _ => unreachable!("the table puts a colour here"),
        }
    }

    /// The items of a list's column.
    pub fn list(&self) -> &[u64] {
        match self {
            Value::List(items) => items,
            _ => unreachable!("the table puts a list here"),
        }
    }

    /// The standard text of this word.
    pub fn standard(&self) -> Vec<u8> {
        match self {
            Value::Name(word) => word.bytes.to_vec(),
            Value::Number(number) => number.to_string().into_bytes(),
            Value::Strand(strand) => vec![strand.letter()],
            Value::Fixed(word) => word.as_bytes().to_vec(),
            Value::Colour([0, 0, 0]) => b"0".to_vec(),
            Value::Colour([r, g, b]) => format!("{r},{g},{b}").into_bytes(),
            Value::List(items) => items
                .iter()
                .flat_map(|item| format!("{item},").into_bytes())
                .collect(),
        }
    }
}

/// Reads a line's words from the left, one for each column. Words past the last
/// column aren't looked at; a missing word is an empty one at the line's end.
pub fn read<'t>(columns: &[Column], line: &Line<'t>) -> Answer<Vec<Value<'t>>> {
    let words = text::words(line);
    let missing = Word {
        start: line.end(),
        bytes: &[],
    };
    let mut blocks = None;
    let mut values = Vec::new();
    for (at, column) in columns.iter().enumerate() {
        let word = words.get(at).unwrap_or(&missing);
        let value = column
            .read(word, blocks)
            .map_err(|refusal| refusal.moved(word.start))?;
        if let Column::BlockCount = column {
            blocks = Some(value.number());
        }
        values.push(value);
    }
    Ok(values)
}

/// The standard line without its line feed.
pub fn standard_line(values: &[Value], separator: &[u8]) -> Vec<u8> {
    let words: Vec<Vec<u8>> = values.iter().map(Value::standard).collect();
    words.join(separator)
}
