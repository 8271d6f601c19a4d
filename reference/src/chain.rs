//! One chain. The target's strand is always `+`, so a record doesn't hold it.

use crate::columns::{self, Column, Value};
use crate::ledger::{require, Answer, Reason, Refusal, Strand};
use crate::ledger::{BLOCK_LIMIT, CHAIN_ID_LIMIT, CHAIN_SCORE_LIMIT, TEXT_LIMIT};
use crate::rows::{self, Row};
use crate::text::{self, Line, Part};

/// The thirteen columns of the header.
pub const HEADER: [Column; 13] = [
    Column::Fixed("chain"),
    Column::up_to(CHAIN_SCORE_LIMIT), // score
    Column::Name,                     // tName
    Column::SIZE,                     // tSize
    Column::Fixed("+"),               // tStrand
    Column::COORDINATE,               // tStart
    Column::COORDINATE,               // tEnd
    Column::Name,                     // qName
    Column::SIZE,                     // qSize
    Column::Strand { dot: false },    // qStrand
    Column::COORDINATE,               // qStart
    Column::COORDINATE,               // qEnd
    Column::up_to(CHAIN_ID_LIMIT),    // id
];

/// The columns of a block line: size, and in all but the last dt and dq.
pub const BLOCK: [Column; 3] = [Column::SIZE, Column::COORDINATE, Column::COORDINATE];

/// The record of a chain. Its blocks stand in a table of rows.
#[derive(Clone, Copy, Debug, PartialEq, Eq)]
pub struct Chain {
    pub score: u64,
    pub t_name: Part,
    pub t_size: u64,
    pub t_start: u64,
    pub t_end: u64,
    pub q_name: Part,
    pub q_size: u64,
    pub q_strand: Strand,
    /// With `-`, on the reversed query.
    pub q_start: u64,
    pub q_end: u64,
    pub id: u64,
    pub block_count: u64,
}

/// The names of a chain, handed back or handed in.
#[derive(Clone, Copy, Debug, PartialEq, Eq)]
pub struct Names<'t> {
    pub target: &'t [u8],
    pub query: &'t [u8],
}

impl Chain {
    /// The names as parts of the text they stand in.
    pub fn names<'t>(&self, text: &'t [u8]) -> Names<'t> {
        Names {
            target: text::part_in(text, self.t_name),
            query: text::part_in(text, self.q_name),
        }
    }

    fn strand_good(&self) -> bool {
        self.q_strand != Strand::Dot
    }

    fn numbers_good(&self) -> bool {
        let coordinates = [self.t_start, self.t_end, self.q_start, self.q_end];
        coordinates.into_iter().all(rows::coordinate)
            && rows::sequence_size(self.t_size)
            && rows::sequence_size(self.q_size)
            && self.score <= CHAIN_SCORE_LIMIT
            && self.id <= CHAIN_ID_LIMIT
    }

    fn target_span_good(&self) -> bool {
        self.t_start < self.t_end && self.t_end <= self.t_size
    }

    fn query_span_good(&self) -> bool {
        self.q_start < self.q_end && self.q_end <= self.q_size
    }

    /// Sizes plus dt fill the target span, sizes plus dq the query span.
    fn blocks_good(&self, rows: &[Row]) -> bool {
        rows::fill(&rows::target_spans(rows), self.t_start, self.t_end)
            && rows::fill(&rows::query_spans(rows), self.q_start, self.q_end)
    }
}

/// Reads a chain into a record and its rows; `room` is the number of rows lent.
pub fn read(text: &[u8], room: usize) -> Answer<(Chain, Vec<Row>)> {
    let (chain, rows) = read_text(text)?;
    require(rows.len() <= room, Reason::NoRoom, text.len())?;
    Ok((chain, rows))
}

/// The text checker: the reader without room.
pub fn check(text: &[u8]) -> Answer<Chain> {
    Ok(read_text(text)?.0)
}

fn read_text(text: &[u8]) -> Answer<(Chain, Vec<Row>)> {
    text::check_text(text)?;
    let lines = text::lines(text);
    let text_ended = Refusal::new(Reason::WrongCount, text.len());
    let (header, rest) = lines.split_first().ok_or(text_ended)?;
    let mut chain = read_header(header)?;
    let block_lines = read_block_lines(rest)?.ok_or(text_ended)?;
    text::no_surplus(rest.get(block_lines.len()))?;
    let rows = block_rows(&chain, &block_lines);
    chain.block_count = rows.len() as u64;
    require(chain.blocks_good(&rows), Reason::BadBlocks, text.len())?;
    Ok((chain, rows))
}

/// The header's word count, its words, and its spans (7); no blocks yet.
fn read_header(line: &Line) -> Answer<Chain> {
    let words = text::words(line);
    if words.len() != HEADER.len() {
        return Err(text::wrong_count(line, HEADER.len()));
    }
    let values = columns::read(&HEADER, line)?;
    let chain = Chain {
        score: values[1].number(),
        t_name: values[2].part(),
        t_size: values[3].number(),
        t_start: values[5].number(),
        t_end: values[6].number(),
        q_name: values[7].part(),
        q_size: values[8].number(),
        q_strand: values[9].strand(),
        q_start: values[10].number(),
        q_end: values[11].number(),
        id: values[12].number(),
        block_count: 0,
    };
    require(chain.target_span_good(), Reason::BadSpan, words[6].start)?;
    require(chain.query_span_good(), Reason::BadSpan, words[11].start)?;
    Ok(chain)
}

/// A block line: size, and the gaps dt and dq after it (0 in the last line).
struct BlockLine {
    size: u64,
    dt: u64,
    dq: u64,
}

/// The block lines up to a size alone, or nothing where the lines end before it.
fn read_block_lines(lines: &[Line]) -> Answer<Option<Vec<BlockLine>>> {
    let mut blocks = Vec::new();
    for line in lines {
        let full = blocks.len() as u64 == BLOCK_LIMIT;
        require(!full, Reason::NoRoom, line.start)?;
        let count = text::words(line).len();
        if count != 1 && count != 3 {
            return Err(text::wrong_count(line, BLOCK.len()));
        }
        let values = columns::read(&BLOCK[..count], line)?;
        blocks.push(BlockLine {
            size: values[0].number(),
            dt: values.get(1).map_or(0, Value::number),
            dq: values.get(2).map_or(0, Value::number),
        });
        if count == 1 {
            return Ok(Some(blocks));
        }
    }
    Ok(None)
}

/// The first block starts at tStart and qStart, each later one dt and dq past
/// the end of the one before.
fn block_rows(chain: &Chain, lines: &[BlockLine]) -> Vec<Row> {
    let (mut target, mut query) = (chain.t_start, chain.q_start);
    let mut rows = Vec::new();
    for line in lines {
        let size = line.size;
        rows.push(Row {
            target,
            query,
            size,
        });
        target += size + line.dt;
        query += size + line.dq;
    }
    rows
}

/// The record checker, names by length alone: any breach is 9.
pub fn check_record(chain: &Chain, table: &[Row]) -> Answer<()> {
    let rows = rows::used(table, chain.block_count)?;
    let good = text::name_length(chain.t_name.length)
        && text::name_length(chain.q_name.length)
        && chain.strand_good()
        && chain.numbers_good()
        && rows::in_range(rows)
        && chain.target_span_good()
        && chain.query_span_good()
        && chain.blocks_good(rows);
    require(good, Reason::BadBlocks, 0)
}

/// Writes the standard text from the record, the names handed in and the rows
/// of a table; `room` is the number of bytes lent.
pub fn write(chain: &Chain, names: Names, table: &[Row], room: usize) -> Answer<Vec<u8>> {
    let rows = rows::used(table, chain.block_count)?;
    let words_good = text::name_writable(names.target)
        && text::name_writable(names.query)
        && chain.strand_good();
    require(words_good, Reason::BadWord, 0)?;
    let numbers_good = chain.numbers_good() && rows::in_range(rows);
    require(numbers_good, Reason::OutOfRange, 0)?;
    let spans_good = chain.target_span_good() && chain.query_span_good();
    require(spans_good, Reason::BadSpan, 0)?;
    require(chain.blocks_good(rows), Reason::BadBlocks, 0)?;
    let text = standard_text(chain, names, rows);
    require(text.len() <= TEXT_LIMIT, Reason::TextTooLong, 0)?;
    require(text.len() <= room, Reason::NoRoom, 0)?;
    Ok(text)
}

/// One space between words, and a line feed after every line.
fn standard_text(chain: &Chain, names: Names, rows: &[Row]) -> Vec<u8> {
    let header = [
        Value::Fixed("chain"),
        Value::Number(chain.score),
        Value::name(names.target),
        Value::Number(chain.t_size),
        Value::Fixed("+"),
        Value::Number(chain.t_start),
        Value::Number(chain.t_end),
        Value::name(names.query),
        Value::Number(chain.q_size),
        Value::Strand(chain.q_strand),
        Value::Number(chain.q_start),
        Value::Number(chain.q_end),
        Value::Number(chain.id),
    ];
    let mut text = columns::standard_line(&header, b" ");
    text.push(b'\n');
    let dt = rows::gaps(&rows::target_spans(rows));
    let dq = rows::gaps(&rows::query_spans(rows));
    for (at, row) in rows.iter().enumerate() {
        text.extend(row.size.to_string().bytes());
        if at < dt.len() {
            text.extend(format!(" {} {}", dt[at], dq[at]).bytes());
        }
        text.push(b'\n');
    }
    text
}

/// Whether two records are the same: numbers, strands, name bytes and used rows
/// agree, wherever the names stand.
pub fn same(left: (&Chain, Names, &[Row]), right: (&Chain, Names, &[Row])) -> bool {
    let bare = |chain: &Chain| Chain {
        t_name: Part::NOWHERE,
        q_name: Part::NOWHERE,
        ..*chain
    };
    bare(left.0) == bare(right.0)
        && left.1 == right.1
        && rows::same_used(left.2, right.2, left.0.block_count)
}
