//! One PSL line.

use crate::columns::{self, Column, Value};
use crate::ledger::{require, Answer, Reason, Strand, TEXT_LIMIT};
use crate::lift;
use crate::rows::{self, Row, Span};
use crate::text::{self, Part};

/// The twenty-one columns.
pub const COLUMNS: [Column; 21] = [
    Column::COORDINATE,            // matches
    Column::COORDINATE,            // misMatches
    Column::COORDINATE,            // repMatches
    Column::COORDINATE,            // nCount
    Column::COORDINATE,            // qNumInsert
    Column::COORDINATE,            // qBaseInsert
    Column::COORDINATE,            // tNumInsert
    Column::COORDINATE,            // tBaseInsert
    Column::Strand { dot: false }, // strand
    Column::Name,                  // qName
    Column::SIZE,                  // qSize
    Column::COORDINATE,            // qStart
    Column::COORDINATE,            // qEnd
    Column::Name,                  // tName
    Column::SIZE,                  // tSize
    Column::COORDINATE,            // tStart
    Column::COORDINATE,            // tEnd
    Column::BlockCount,            // blockCount
    Column::BLOCK_SIZES,           // blockSizes
    Column::BLOCK_STARTS,          // qStarts
    Column::BLOCK_STARTS,          // tStarts
];

/// Inserts on one side: the nonempty gaps and their bases.
#[derive(Clone, Copy, Debug, PartialEq, Eq)]
pub struct Inserts {
    pub number: u64,
    pub bases: u64,
}

/// The record of a PSL line. Its blocks stand in a table of rows.
#[derive(Clone, Copy, Debug, PartialEq, Eq)]
pub struct Psl {
    pub matches: u64,
    pub mis_matches: u64,
    pub rep_matches: u64,
    pub n_count: u64,
    pub q_inserts: Inserts,
    pub t_inserts: Inserts,
    /// The strand of the query.
    pub strand: Strand,
    pub q_name: Part,
    pub q_size: u64,
    /// On the forward strand, whatever the strand of the query.
    pub q_start: u64,
    pub q_end: u64,
    pub t_name: Part,
    pub t_size: u64,
    pub t_start: u64,
    pub t_end: u64,
    pub block_count: u64,
}

/// The names of a PSL line, handed back or handed in.
#[derive(Clone, Copy, Debug, PartialEq, Eq)]
pub struct Names<'t> {
    pub query: &'t [u8],
    pub target: &'t [u8],
}

impl Psl {
    /// The names as parts of the text they stand in.
    pub fn names<'t>(&self, text: &'t [u8]) -> Names<'t> {
        Names {
            query: text::part_in(text, self.q_name),
            target: text::part_in(text, self.t_name),
        }
    }

    fn strand_good(&self) -> bool {
        self.strand != Strand::Dot
    }

    fn numbers_good(&self) -> bool {
        let coordinates = [
            self.matches,
            self.mis_matches,
            self.rep_matches,
            self.n_count,
            self.q_inserts.number,
            self.q_inserts.bases,
            self.t_inserts.number,
            self.t_inserts.bases,
            self.q_start,
            self.q_end,
            self.t_start,
            self.t_end,
        ];
        coordinates.into_iter().all(rows::coordinate)
            && rows::sequence_size(self.q_size)
            && rows::sequence_size(self.t_size)
    }

    fn query_span_good(&self) -> bool {
        self.q_start < self.q_end && self.q_end <= self.q_size
    }

    fn target_span_good(&self) -> bool {
        self.t_start < self.t_end && self.t_end <= self.t_size
    }

    /// The query's span on the strand that qStarts count on.
    fn strand_span(&self) -> Answer<(u64, u64)> {
        match self.strand {
            Strand::Minus => lift::convert(self.q_size, self.q_start, self.q_end),
            _ => Ok((self.q_start, self.q_end)),
        }
    }

    fn blocks_good(&self, rows: &[Row]) -> bool {
        let query_good = match self.strand_span() {
            Ok((start, end)) => rows::fill(&rows::query_spans(rows), start, end),
            Err(_) => false,
        };
        query_good && rows::fill(&rows::target_spans(rows), self.t_start, self.t_end)
    }

    /// House rule: the first four counts sum to the block sizes, and each insert
    /// pair is the number of nonempty gaps on that side and their bases.
    fn counts_good(&self, rows: &[Row]) -> bool {
        let counts = [
            self.matches,
            self.mis_matches,
            self.rep_matches,
            self.n_count,
        ];
        let counted: u128 = counts.into_iter().map(u128::from).sum();
        counted == rows::bases(rows)
            && inserts_good(self.q_inserts, &rows::query_spans(rows))
            && inserts_good(self.t_inserts, &rows::target_spans(rows))
    }
}

fn inserts_good(inserts: Inserts, spans: &[Span]) -> bool {
    let gaps = rows::gaps(spans);
    let number = gaps.iter().filter(|gap| **gap > 0).count();
    u128::from(inserts.number) == number as u128
        && u128::from(inserts.bases) == gaps.iter().sum::<u128>()
}

/// Reads a PSL line into a record and its rows; `room` is the number of rows lent.
pub fn read(text: &[u8], room: usize) -> Answer<(Psl, Vec<Row>)> {
    let (psl, rows) = read_text(text)?;
    require(rows.len() <= room, Reason::NoRoom, text.len())?;
    Ok((psl, rows))
}

/// The text checker: the reader without room.
pub fn check(text: &[u8]) -> Answer<Psl> {
    Ok(read_text(text)?.0)
}

fn read_text(text: &[u8]) -> Answer<(Psl, Vec<Row>)> {
    let (line, surplus) = text::one_line(text)?;
    let words = text::words(&line);
    if words.len() != COLUMNS.len() {
        return Err(text::wrong_count(&line, COLUMNS.len()));
    }
    let values = columns::read(&COLUMNS, &line)?;
    text::no_surplus(surplus.as_ref())?;
    let psl = record(&values);
    require(psl.query_span_good(), Reason::BadSpan, words[12].start)?;
    require(psl.target_span_good(), Reason::BadSpan, words[16].start)?;
    let rows = block_rows(&values);
    require(psl.blocks_good(&rows), Reason::BadBlocks, text.len())?;
    require(psl.counts_good(&rows), Reason::BadCounts, text.len())?;
    Ok((psl, rows))
}

/// The record that the words spell.
fn record(values: &[Value]) -> Psl {
    let number = |at: usize| values[at].number();
    let inserts = |at: usize| Inserts {
        number: number(at),
        bases: number(at + 1),
    };
    Psl {
        matches: number(0),
        mis_matches: number(1),
        rep_matches: number(2),
        n_count: number(3),
        q_inserts: inserts(4),
        t_inserts: inserts(6),
        strand: values[8].strand(),
        q_name: values[9].part(),
        q_size: number(10),
        q_start: number(11),
        q_end: number(12),
        t_name: values[13].part(),
        t_size: number(14),
        t_start: number(15),
        t_end: number(16),
        block_count: number(17),
    }
}

fn block_rows(values: &[Value]) -> Vec<Row> {
    let (sizes, queries, targets) = (values[18].list(), values[19].list(), values[20].list());
    (0..sizes.len())
        .map(|at| Row {
            target: targets[at],
            query: queries[at],
            size: sizes[at],
        })
        .collect()
}

/// The record checker: any breach is 9.
pub fn check_record(psl: &Psl, table: &[Row]) -> Answer<()> {
    let rows = rows::used(table, psl.block_count)?;
    let good = text::name_length(psl.q_name.length)
        && text::name_length(psl.t_name.length)
        && psl.strand_good()
        && psl.numbers_good()
        && rows::in_range(rows)
        && psl.query_span_good()
        && psl.target_span_good()
        && psl.blocks_good(rows)
        && psl.counts_good(rows);
    require(good, Reason::BadBlocks, 0)
}

/// Writes the standard text from the record, the names handed in and the rows
/// of a table; `room` is the number of bytes lent.
pub fn write(psl: &Psl, names: Names, table: &[Row], room: usize) -> Answer<Vec<u8>> {
    let rows = rows::used(table, psl.block_count)?;
    let words_good =
        text::name_writable(names.query) && text::name_writable(names.target) && psl.strand_good();
    require(words_good, Reason::BadWord, 0)?;
    let numbers_good = psl.numbers_good() && rows::in_range(rows);
    require(numbers_good, Reason::OutOfRange, 0)?;
    let spans_good = psl.query_span_good() && psl.target_span_good();
    require(spans_good, Reason::BadSpan, 0)?;
    require(psl.blocks_good(rows), Reason::BadBlocks, 0)?;
    require(psl.counts_good(rows), Reason::BadCounts, 0)?;
    let text = standard_text(psl, names, rows);
    require(text.len() <= TEXT_LIMIT, Reason::TextTooLong, 0)?;
    require(text.len() <= room, Reason::NoRoom, 0)?;
    Ok(text)
}

/// A tab between words, and a line feed.
fn standard_text(psl: &Psl, names: Names, rows: &[Row]) -> Vec<u8> {
    let values = [
        Value::Number(psl.matches),
        Value::Number(psl.mis_matches),
        Value::Number(psl.rep_matches),
        Value::Number(psl.n_count),
        Value::Number(psl.q_inserts.number),
        Value::Number(psl.q_inserts.bases),
        Value::Number(psl.t_inserts.number),
        Value::Number(psl.t_inserts.bases),
        Value::Strand(psl.strand),
        Value::name(names.query),
        Value::Number(psl.q_size),
        Value::Number(psl.q_start),
        Value::Number(psl.q_end),
        Value::name(names.target),
        Value::Number(psl.t_size),
        Value::Number(psl.t_start),
        Value::Number(psl.t_end),
        Value::Number(psl.block_count),
        Value::List(rows.iter().map(|row| row.size).collect()),
        Value::List(rows.iter().map(|row| row.query).collect()),
        Value::List(rows.iter().map(|row| row.target).collect()),
    ];
    let mut text = columns::standard_line(&values, b"\t");
    text.push(b'\n');
    text
}

/// Whether two records are the same: numbers, strands, name bytes and used rows
/// agree, wherever the names stand.
pub fn same(left: (&Psl, Names, &[Row]), right: (&Psl, Names, &[Row])) -> bool {
    let bare = |psl: &Psl| Psl {
        q_name: Part::NOWHERE,
        t_name: Part::NOWHERE,
        ..*psl
    };
    bare(left.0) == bare(right.0)
        && left.1 == right.1
        && rows::same_used(left.2, right.2, left.0.block_count)
}
