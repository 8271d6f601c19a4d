//! A BED line.

use super::words::{check_text, letter, list, list_of, name, no_surplus_line, number};
use super::words::{require, split, Answer, Split, Word};
use super::{fill, Record, Row, Rows, Standard, BLOCK_LIMIT, LIMIT};

const COORDINATE: (u64, u64) = (0, LIMIT);

pub struct Bed {
    word_count: u64,
    chrom: Word,
    start: u64,
    end: u64,
    name: Word,
    score: u64,
    strand: u8,
    thick_start: u64,
    thick_end: u64,
    colour: u64,
    block_count: usize,
}

impl Record for Bed {
    fn read(text: &[u8], rows: &mut Rows) -> Answer<Bed> {
        read_text(text, rows)
    }

    fn block_count(&self) -> usize {
        self.block_count
    }

    fn numbers(&self) -> Vec<u64> {
        let part = |(start, end): Word| [start as u64, (end - start) as u64];
        let [chrom, chrom_length] = part(self.chrom);
        let [name, name_length] = part(self.name);
        vec![
            self.word_count,
            chrom,
            chrom_length,
            self.start,
            self.end,
            name,
            name_length,
            self.score,
            u64::from(self.strand),
            self.thick_start,
            self.thick_end,
            self.colour,
            self.block_count as u64,
        ]
    }

    fn write(&self, text: &[u8], rows: &[Row], out: &mut Standard) {
        out.line(b'\t');
        if self.word_count > 9 {
            out.list(rows.iter().rev().map(|row| row.target - self.start));
            out.list(rows.iter().rev().map(|row| row.size));
            out.number(self.block_count as u64);
        }
        if self.word_count > 8 {
            write_colour(self.colour, out);
        }
        if self.word_count > 7 {
            out.number(self.thick_end);
        }
        if self.word_count > 6 {
            out.number(self.thick_start);
        }
        if self.word_count > 5 {
            out.word(&[self.strand]);
        }
        if self.word_count > 4 {
            out.number(self.score);
        }
        if self.word_count > 3 {
            out.word(&text[self.name.0..self.name.1]);
        }
        out.number(self.end);
        out.number(self.start);
        out.word(&text[self.chrom.0..self.chrom.1]);
    }
}

fn read_text(text: &[u8], rows: &mut Rows) -> Answer<Bed> {
    check_text(text)?;
    let line = split::<12>(text, 0);
    require(matches!(line.count, 3..=9 | 12), 2, line.end)?;
    let bed = read_words(text, &line, rows)?;
    no_surplus_line(text, line.end)?;
    require(bed.start < bed.end, 7, line.words[2].0)?;
    let thick = bed.start <= bed.thick_start
        && bed.thick_start <= bed.thick_end
        && bed.thick_end <= bed.end;
    let thick_word = if line.count == 7 { 6 } else { 7 };
    require(line.count < 7 || thick, 7, line.words[thick_word].0)?;
    if line.count < 12 {
        rows[0] = Row {
            target: 0,
            query: 0,
            size: bed.end - bed.start,
        };
    }
    let used = &mut rows[..bed.block_count];
    require(
        fill(used, |row| row.target, 0, bed.end - bed.start),
        9,
        text.len(),
    )?;
    let mut query = 0;
    for row in used {
        row.target += bed.start;
        row.query = query;
        query += row.size;
    }
    Ok(bed)
}

/// The words from the left; block starts go to the rows as they stand.
fn read_words(text: &[u8], line: &Split<12>, rows: &mut Rows) -> Answer<Bed> {
    let (words, count) = (&line.words, line.count);
    let chrom = name(words[0])?;
    let start = number(text, words[1], COORDINATE)?;
    let end = number(text, words[2], COORDINATE)?;
    let mut bed = Bed {
        word_count: count as u64,
        chrom,
        start,
        end,
        name: (text.len(), text.len()),
        score: 0,
        strand: b'.',
        thick_start: start,
        thick_end: end,
        colour: 0,
        block_count: 1,
    };
    if count > 3 {
        bed.name = name(words[3])?;
    }
    if count > 4 {
        bed.score = number(text, words[4], (0, 1000))?;
    }
    if count > 5 {
        bed.strand = letter(text, words[5], b"+-.")?;
    }
    if count > 6 {
        bed.thick_start = number(text, words[6], COORDINATE)?;
    }
    if count > 7 {
        bed.thick_end = number(text, words[7], COORDINATE)?;
    }
    if count > 8 {
        bed.colour = colour(text, words[8])?;
    }
    if count > 9 {
        bed.block_count = blocks(text, &words[9..], rows)?;
    }
    Ok(bed)
}

/// blockCount, blockSizes and blockStarts.
fn blocks(text: &[u8], words: &[Word], rows: &mut Rows) -> Answer<usize> {
    let blocks = number(text, words[0], (1, BLOCK_LIMIT as u64))?;
    list_of(text, words[1], (1, LIMIT), blocks, |at, size| {
        if let Some(row) = rows.get_mut(at) {
            row.size = size;
        }
    })?;
    list_of(text, words[2], COORDINATE, blocks, |at, start| {
        if let Some(row) = rows.get_mut(at) {
            row.target = start;
        }
    })?;
    Ok(blocks as usize)
}

fn colour(text: &[u8], word: Word) -> Answer<u64> {
    if &text[word.0..word.1] == b"0" {
        return Ok(0);
    }
    let mut colour = 0;
    let count = list(text, word, (0, 255), false, |_, part| {
        colour = colour << 8 | part
    })?;
    require(count == 3, 8, word.0)?;
    Ok(colour)
}

/// `0`, or red, green and blue.
fn write_colour(colour: u64, out: &mut Standard) {
    if colour == 0 {
        return out.word(b"0");
    }
    out.number(colour & 255);
    out.bytes(b",");
    out.digits(colour >> 8 & 255);
    out.bytes(b",");
    out.digits(colour >> 16);
}
