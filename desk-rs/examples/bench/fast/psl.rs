//! A PSL line.

use super::words::{check_text, letter, list_of, name, no_surplus_line, number};
use super::words::{require, split, Answer, Split, Word};
use super::{fill, Record, Row, Rows, Standard, BLOCK_LIMIT, LIMIT};

const COORDINATE: (u64, u64) = (0, LIMIT);
const SIZE: (u64, u64) = (1, LIMIT);

pub struct Psl {
    /// matches to tBaseInsert.
    counts: [u64; 8],
    strand: u8,
    query: Side,
    target: Side,
    block_count: usize,
}

#[derive(Clone, Copy)]
struct Side {
    name: Word,
    size: u64,
    start: u64,
    end: u64,
}

impl Side {
    fn numbers(&self) -> [u64; 5] {
        let (start, end) = self.name;
        [
            start as u64,
            (end - start) as u64,
            self.size,
            self.start,
            self.end,
        ]
    }

    fn good(&self) -> bool {
        self.start < self.end && self.end <= self.size
    }
}

impl Record for Psl {
    fn read(text: &[u8], rows: &mut Rows) -> Answer<Psl> {
        read_text(text, rows)
    }

    fn block_count(&self) -> usize {
        self.block_count
    }

    fn numbers(&self) -> Vec<u64> {
        let mut numbers = self.counts.to_vec();
        numbers.push(u64::from(self.strand));
        numbers.extend(self.query.numbers());
        numbers.extend(self.target.numbers());
        numbers.push(self.block_count as u64);
        numbers
    }

    fn write(&self, text: &[u8], rows: &[Row], out: &mut Standard) {
        out.line(b'\t');
        out.list(rows.iter().rev().map(|row| row.target));
        out.list(rows.iter().rev().map(|row| row.query));
        out.list(rows.iter().rev().map(|row| row.size));
        out.number(self.block_count as u64);
        for side in [&self.target, &self.query] {
            out.number(side.end);
            out.number(side.start);
            out.number(side.size);
            out.word(&text[side.name.0..side.name.1]);
        }
        out.word(&[self.strand]);
        for count in self.counts.iter().rev() {
            out.number(*count);
        }
    }
}

fn read_text(text: &[u8], rows: &mut Rows) -> Answer<Psl> {
    check_text(text)?;
    let line = split::<21>(text, 0);
    require(line.count == 21, 2, line.end)?;
    let psl = read_words(text, &line, rows)?;
    no_surplus_line(text, line.end)?;
    require(psl.query.good(), 7, line.words[12].0)?;
    require(psl.target.good(), 7, line.words[16].0)?;
    let used = &rows[..psl.block_count];
    let Side {
        size, start, end, ..
    } = psl.query;
    let (q_start, q_end) = match psl.strand {
        b'-' => (size - end, size - start),
        _ => (start, end),
    };
    let blocks_good = fill(used, |row| row.query, q_start, q_end)
        && fill(used, |row| row.target, psl.target.start, psl.target.end);
    require(blocks_good, 9, text.len())?;
    require(counts_good(&psl.counts, used), 10, text.len())?;
    Ok(psl)
}

fn read_words(text: &[u8], line: &Split<21>, rows: &mut Rows) -> Answer<Psl> {
    let words = &line.words;
    let mut counts = [0; 8];
    for (count, word) in counts.iter_mut().zip(words) {
        *count = number(text, *word, COORDINATE)?;
    }
    let strand = letter(text, words[8], b"+-")?;
    let query = side(text, &words[9..13])?;
    let target = side(text, &words[13..17])?;
    let blocks = number(text, words[17], (1, BLOCK_LIMIT as u64))?;
    list_of(text, words[18], SIZE, blocks, |at, size| {
        if let Some(row) = rows.get_mut(at) {
            row.size = size;
        }
    })?;
    list_of(text, words[19], COORDINATE, blocks, |at, start| {
        if let Some(row) = rows.get_mut(at) {
            row.query = start;
        }
    })?;
    list_of(text, words[20], COORDINATE, blocks, |at, start| {
        if let Some(row) = rows.get_mut(at) {
            row.target = start;
        }
    })?;
    let block_count = blocks as usize;
    Ok(Psl {
        counts,
        strand,
        query,
        target,
        block_count,
    })
}

/// Name, size, start and end of one side.
fn side(text: &[u8], words: &[Word]) -> Answer<Side> {
    Ok(Side {
        name: name(words[0])?,
        size: number(text, words[1], SIZE)?,
        start: number(text, words[2], COORDINATE)?,
        end: number(text, words[3], COORDINATE)?,
    })
}

fn counts_good(counts: &[u64; 8], rows: &[Row]) -> bool {
    let bases: u64 = rows.iter().map(|row| row.size).sum();
    let mut inserts = [0; 4];
    for two in rows.windows(2) {
        let q_gap = two[1].query - two[0].query - two[0].size;
        let t_gap = two[1].target - two[0].target - two[0].size;
        inserts[0] += u64::from(q_gap > 0);
        inserts[1] += q_gap;
        inserts[2] += u64::from(t_gap > 0);
        inserts[3] += t_gap;
    }
    counts[..4].iter().sum::<u64>() == bases && counts[4..] == inserts
}
