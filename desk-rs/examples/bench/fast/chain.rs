//! A chain, and lifting a region through it.

use super::words::{check_text, letter, name, no_surplus_line, number};
use super::words::{require, split, Answer, Refused, Word};
use super::{Record, Room, Row, Rows, Standard, BLOCK_LIMIT, LIMIT};

const COORDINATE: (u64, u64) = (0, LIMIT);
const SIZE: (u64, u64) = (1, LIMIT);

pub struct Chain {
    score: u64,
    t_name: Word,
    pub(super) t_size: u64,
    t_start: u64,
    t_end: u64,
    q_name: Word,
    q_size: u64,
    q_strand: u8,
    q_start: u64,
    q_end: u64,
    id: u64,
    pub(super) block_count: usize,
}

impl Chain {
    /// A query region on the forward strand; what is none gives any numbers.
    #[inline(always)]
    pub(super) fn forward(&self, start: u64, end: u64) -> (u64, u64) {
        match self.q_strand {
            b'-' => (
                self.q_size.wrapping_sub(end),
                self.q_size.wrapping_sub(start),
            ),
            _ => (start, end),
        }
    }
}

impl Record for Chain {
    fn read(text: &[u8], rows: &mut Rows) -> Answer<Chain> {
        read_text(text, rows)
    }

    fn block_count(&self) -> usize {
        self.block_count
    }

    fn numbers(&self) -> Vec<u64> {
        let part = |(start, end): Word| [start as u64, (end - start) as u64];
        let [t_name, t_length] = part(self.t_name);
        let [q_name, q_length] = part(self.q_name);
        vec![
            self.score,
            t_name,
            t_length,
            self.t_size,
            self.t_start,
            self.t_end,
            q_name,
            q_length,
            self.q_size,
            u64::from(self.q_strand),
            self.q_start,
            self.q_end,
            self.id,
            self.block_count as u64,
        ]
    }

    fn write(&self, text: &[u8], rows: &[Row], out: &mut Standard) {
        out.line(b' ');
        out.number(rows[rows.len() - 1].size);
        for two in rows.windows(2).rev() {
            let (row, next) = (&two[0], &two[1]);
            out.line(b' ');
            out.number(next.query - row.query - row.size);
            out.number(next.target - row.target - row.size);
            out.number(row.size);
        }
        out.line(b' ');
        out.number(self.id);
        out.number(self.q_end);
        out.number(self.q_start);
        out.word(&[self.q_strand]);
        out.number(self.q_size);
        out.word(&text[self.q_name.0..self.q_name.1]);
        out.number(self.t_end);
        out.number(self.t_start);
        out.word(b"+");
        out.number(self.t_size);
        out.word(&text[self.t_name.0..self.t_name.1]);
        out.number(self.score);
        out.word(b"chain");
    }
}

pub(super) fn read_text(text: &[u8], rows: &mut Rows) -> Answer<Chain> {
    check_text(text)?;
    let (mut chain, header_end) = read_header(text)?;
    let end = read_blocks(text, header_end, &mut chain, rows)?;
    no_surplus_line(text, end)?;
    let last = rows[chain.block_count - 1];
    let filled = last.target + last.size == chain.t_end && last.query + last.size == chain.q_end;
    require(filled, 9, text.len())?;
    Ok(chain)
}

/// The header's words and spans, and where its line ends.
fn read_header(text: &[u8]) -> Answer<(Chain, usize)> {
    let line = split::<13>(text, 0);
    let words = &line.words;
    require(line.count == 13, 2, line.end)?;
    require(&text[words[0].0..words[0].1] == b"chain", 6, words[0].0)?;
    let score = number(text, words[1], (0, 999_999_999_999_999_999))?;
    let t_name = name(words[2])?;
    let t_size = number(text, words[3], SIZE)?;
    letter(text, words[4], b"+")?;
    let chain = Chain {
        score,
        t_name,
        t_size,
        t_start: number(text, words[5], COORDINATE)?,
        t_end: number(text, words[6], COORDINATE)?,
        q_name: name(words[7])?,
        q_size: number(text, words[8], SIZE)?,
        q_strand: letter(text, words[9], b"+-")?,
        q_start: number(text, words[10], COORDINATE)?,
        q_end: number(text, words[11], COORDINATE)?,
        id: number(text, words[12], (0, 4_294_967_295))?,
        block_count: 0,
    };
    let target_good = chain.t_start < chain.t_end && chain.t_end <= chain.t_size;
    require(target_good, 7, words[6].0)?;
    let query_good = chain.q_start < chain.q_end && chain.q_end <= chain.q_size;
    require(query_good, 7, words[11].0)?;
    Ok((chain, line.end))
}

/// The block lines up to a size alone; answers where that line ends.
fn read_blocks(text: &[u8], end: usize, chain: &mut Chain, rows: &mut Rows) -> Answer<usize> {
    let (mut target, mut query) = (chain.t_start, chain.q_start);
    let mut start = end + 1;
    while start < text.len() {
        require(chain.block_count < BLOCK_LIMIT, 11, start)?;
        let line = split::<3>(text, start);
        require(line.count == 1 || line.count == 3, 2, line.end)?;
        let size = number(text, line.words[0], SIZE)?;
        rows[chain.block_count] = Row {
            target,
            query,
            size,
        };
        chain.block_count += 1;
        if line.count == 1 {
            return Ok(line.end);
        }
        target += size + number(text, line.words[1], COORDINATE)?;
        query += size + number(text, line.words[2], COORDINATE)?;
        start = line.end + 1;
    }
    Err(Refused::new(2, text.len()))
}

/// Kept, dropped, start and end of a region lifted through a chain's text.
pub fn lift_region(text: &[u8], start: u64, end: u64, room: &mut Room) -> Answer<[u64; 4]> {
    let chain = read_text(text, &mut room.rows)?;
    require(start < end && end <= chain.t_size, 13, 0)?;
    let rows = &room.rows[..chain.block_count];
    let from = rows.partition_point(|row| row.target + row.size <= start);
    let to = rows.partition_point(|row| row.target < end);
    if from >= to {
        return Err(Refused::new(12, 0));
    }
    let (first, last) = (&rows[from], &rows[to - 1]);
    let sizes: u64 = rows[from..to].iter().map(|row| row.size).sum();
    let before = start.saturating_sub(first.target);
    let after = (last.target + last.size).saturating_sub(end);
    let kept = sizes - before - after;
    let (q_start, q_end) = (first.query + before, last.query + last.size - after);
    let (q_start, q_end) = chain.forward(q_start, q_end);
    Ok([kept, end - start - kept, q_start, q_end])
}
