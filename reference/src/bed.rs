//! One BED line.

use crate::columns::{self, Column, Value};
use crate::ledger::{require, Answer, Reason, Strand};
use crate::ledger::{BED_SCORE_LIMIT, COLOUR_LIMIT, TEXT_LIMIT};
use crate::rows::{self, Row};
use crate::text::{self, Line, Part};

/// The twelve columns.
pub const COLUMNS: [Column; 12] = [
    Column::Name,                   // chrom
    Column::COORDINATE,             // chromStart
    Column::COORDINATE,             // chromEnd
    Column::Name,                   // name
    Column::up_to(BED_SCORE_LIMIT), // score
    Column::Strand { dot: true },   // strand
    Column::COORDINATE,             // thickStart
    Column::COORDINATE,             // thickEnd
    Column::Colour,                 // itemRgb
    Column::BlockCount,             // blockCount
    Column::BLOCK_SIZES,            // blockSizes
    Column::BLOCK_STARTS,           // blockStarts
];

/// The record of a BED line. Its blocks stand in a table of rows.
#[derive(Clone, Copy, Debug, PartialEq, Eq)]
pub struct Bed {
    pub word_count: u64,
    pub chrom: Part,
    pub chrom_start: u64,
    pub chrom_end: u64,
    pub name: Part,
    pub score: u64,
    pub strand: Strand,
    pub thick_start: u64,
    pub thick_end: u64,
    pub colour: [u64; 3],
    pub block_count: u64,
}

/// The names of a BED line, handed back or handed in.
#[derive(Clone, Copy, Debug, PartialEq, Eq)]
pub struct Names<'t> {
    pub chrom: &'t [u8],
    pub name: &'t [u8],
}

impl Bed {
    /// The names as parts of the text they stand in.
    pub fn names<'t>(&self, text: &'t [u8]) -> Names<'t> {
        Names {
            chrom: text::part_in(text, self.chrom),
            name: text::part_in(text, self.name),
        }
    }

    /// A column from the fourth on is left out past the word count.
    fn left_out(&self, column: u64) -> bool {
        column > self.word_count
    }

    /// Numbers in their ranges; those left out hold their defaults.
    fn numbers_good(&self) -> bool {
        let in_range = rows::coordinate(self.chrom_start)
            && rows::coordinate(self.chrom_end)
            && self.score <= BED_SCORE_LIMIT
            && rows::coordinate(self.thick_start)
            && rows::coordinate(self.thick_end)
            && self.colour.iter().all(|part| *part <= COLOUR_LIMIT);
        in_range
            && (!self.left_out(5) || self.score == 0)
            && (!self.left_out(7) || self.thick_start == self.chrom_start)
            && (!self.left_out(8) || self.thick_end == self.chrom_end)
            && (!self.left_out(9) || self.colour == [0, 0, 0])
    }

    fn strand_good(&self) -> bool {
        !self.left_out(6) || self.strand == Strand::Dot
    }

    fn span_good(&self) -> bool {
        self.chrom_start < self.chrom_end
    }

    fn thick_good(&self) -> bool {
        self.chrom_start <= self.thick_start
            && self.thick_start <= self.thick_end
            && self.thick_end <= self.chrom_end
    }

    /// The blocks fill the span in order, and query starts are sums of earlier
    /// sizes. A line without block columns has one block.
    fn blocks_good(&self, rows: &[Row]) -> bool {
        let summed =
            (0..rows.len()).all(|at| u128::from(rows[at].query) == rows::bases(&rows[..at]));
        summed
            && (!self.left_out(10) || self.block_count == 1)
            && rows::fill(&rows::target_spans(rows), self.chrom_start, self.chrom_end)
    }
}

/// One line of 3 to 9 or 12 words.
fn word_count_good(count: u64) -> bool {
    matches!(count, 3..=9 | 12)
}

/// Reads a BED line into a record and its rows; `room` is the number of rows lent.
pub fn read(text: &[u8], room: usize) -> Answer<(Bed, Vec<Row>)> {
    let (bed, rows) = read_text(text)?;
    require(rows.len() <= room, Reason::NoRoom, text.len())?;
    Ok((bed, rows))
}

/// The text checker: the reader without room.
pub fn check(text: &[u8]) -> Answer<Bed> {
    Ok(read_text(text)?.0)
}

fn read_text(text: &[u8]) -> Answer<(Bed, Vec<Row>)> {
    let (line, surplus) = text::one_line(text)?;
    let count = text::words(&line).len();
    if !word_count_good(count as u64) {
        return Err(text::wrong_count(&line, COLUMNS.len()));
    }
    let values = columns::read(&COLUMNS[..count], &line)?;
    text::no_surplus(surplus.as_ref())?;
    let bed = record(&values, text.len());
    check_spans(&bed, &line)?;
    let rows = block_rows(&bed, &values);
    require(bed.blocks_good(&rows), Reason::BadBlocks, text.len())?;
    Ok((bed, rows))
}

/// The record that the words spell; columns left out hold their defaults.
fn record(values: &[Value], text_end: usize) -> Bed {
    let number = |at: usize, default: u64| values.get(at).map_or(default, Value::number);
    let chrom_start = values[1].number();
    let chrom_end = values[2].number();
    let no_name = Part {
        start: text_end as u64,
        length: 0,
    };
    Bed {
        word_count: values.len() as u64,
        chrom: values[0].part(),
        chrom_start,
        chrom_end,
        name: values.get(3).map_or(no_name, Value::part),
        score: number(4, 0),
        strand: values.get(5).map_or(Strand::Dot, Value::strand),
        thick_start: number(6, chrom_start),
        thick_end: number(7, chrom_end),
        colour: values.get(8).map_or([0, 0, 0], Value::colour),
        block_count: number(9, 1),
    }
}

/// Refusal 7: at chromEnd, then at thickEnd (with 7 words, at thickStart).
fn check_spans(bed: &Bed, line: &Line) -> Answer<()> {
    let words = text::words(line);
    require(bed.span_good(), Reason::BadSpan, words[2].start)?;
    match words.get(7).or(words.get(6)) {
        Some(thick) => require(bed.thick_good(), Reason::BadSpan, thick.start),
        None => Ok(()),
    }
}

/// The rows: chromStart + block start; sum of earlier sizes; size.
fn block_rows(bed: &Bed, values: &[Value]) -> Vec<Row> {
    let span = [bed.chrom_end - bed.chrom_start];
    let sizes = values.get(10).map_or(&span[..], Value::list);
    let starts = values.get(11).map_or(&[0][..], Value::list);
    let mut query = 0;
    let mut rows = Vec::new();
    for (start, size) in starts.iter().zip(sizes) {
        rows.push(Row {
            target: bed.chrom_start + start,
            query,
            size: *size,
        });
        query += size;
    }
    rows
}

/// The record checker: any breach is 9.
pub fn check_record(bed: &Bed, table: &[Row]) -> Answer<()> {
    let rows = rows::used(table, bed.block_count)?;
    let name_good = match bed.left_out(4) {
        true => bed.name.length == 0,
        false => text::name_length(bed.name.length),
    };
    let good = word_count_good(bed.word_count)
        && text::name_length(bed.chrom.length)
        && name_good
        && bed.strand_good()
        && bed.numbers_good()
        && rows::in_range(rows)
        && bed.span_good()
        && bed.thick_good()
        && bed.blocks_good(rows);
    require(good, Reason::BadBlocks, 0)
}

/// Writes the standard text from the record, the names handed in and the rows
/// of a table; `room` is the number of bytes lent.
pub fn write(bed: &Bed, names: Names, table: &[Row], room: usize) -> Answer<Vec<u8>> {
    let rows = rows::used(table, bed.block_count)?;
    let name_good = match bed.left_out(4) {
        true => names.name.is_empty(),
        false => text::name_writable(names.name),
    };
    let words_good = text::name_writable(names.chrom) && name_good && bed.strand_good();
    require(words_good, Reason::BadWord, 0)?;
    let numbers_good =
        word_count_good(bed.word_count) && bed.numbers_good() && rows::in_range(rows);
    require(numbers_good, Reason::OutOfRange, 0)?;
    require(bed.span_good() && bed.thick_good(), Reason::BadSpan, 0)?;
    require(bed.blocks_good(rows), Reason::BadBlocks, 0)?;
    let text = standard_text(bed, names, rows);
    require(text.len() <= TEXT_LIMIT, Reason::TextTooLong, 0)?;
    require(text.len() <= room, Reason::NoRoom, 0)?;
    Ok(text)
}

/// A tab between words, and a line feed.
fn standard_text(bed: &Bed, names: Names, rows: &[Row]) -> Vec<u8> {
    let sizes = rows.iter().map(|row| row.size).collect();
    let starts = rows
        .iter()
        .map(|row| row.target - bed.chrom_start)
        .collect();
    let values = [
        Value::name(names.chrom),
        Value::Number(bed.chrom_start),
        Value::Number(bed.chrom_end),
        Value::name(names.name),
        Value::Number(bed.score),
        Value::Strand(bed.strand),
        Value::Number(bed.thick_start),
        Value::Number(bed.thick_end),
        Value::Colour(bed.colour),
        Value::Number(bed.block_count),
        Value::List(sizes),
        Value::List(starts),
    ];
    let mut text = columns::standard_line(&values[..bed.word_count as usize], b"\t");
    text.push(b'\n');
    text
}

/// Whether two records are the same: numbers, strands, name bytes and used rows
/// agree, wherever the names stand.
pub fn same(left: (&Bed, Names, &[Row]), right: (&Bed, Names, &[Row])) -> bool {
    let bare = |bed: &Bed| Bed {
        chrom: Part::NOWHERE,
        name: Part::NOWHERE,
        ..*bed
    };
    bare(left.0) == bare(right.0)
        && left.1 == right.1
        && rows::same_used(left.2, right.2, left.0.block_count)
}
