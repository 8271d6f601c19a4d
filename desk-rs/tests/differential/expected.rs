//! What the second program answers, in the form of the library's entries.

use reference::chain::{self, Chain};
use reference::ledger::{require, Answer, Reason, Refusal};
use reference::lift::{self, Tally};
use reference::rows::{self, Row};
use reference::{bed, numbers, psl};
use tenderchock::Kind;

/// Room that is enough for every record and text.
pub const ROOM: usize = 1 << 20;

/// An answer as one number.
pub fn packed(answer: &Answer<u64>) -> u64 {
    match answer {
        Ok(value) => value * 16,
        Err(refusal) => refusal.place as u64 * 16 + u64::from(refusal.reason.number()),
    }
}

/// The kind that a number stands for, or 6 at place 0.
pub fn kind(number: u64) -> Answer<Kind> {
    match number {
        1 => Ok(Kind::Bed),
        2 => Ok(Kind::Psl),
        3 => Ok(Kind::Chain),
        _ => Err(Refusal::new(Reason::BadWord, 0)),
    }
}

pub fn check(kind: Kind, text: &[u8]) -> Answer<u64> {
    Ok(match kind {
        Kind::Bed => bed::check(text)?.block_count,
        Kind::Psl => psl::check(text)?.block_count,
        Kind::Chain => chain::check(text)?.block_count,
    })
}

pub fn parse(kind: Kind, text: &[u8]) -> Answer<Vec<u64>> {
    let (mut numbers, rows) = match kind {
        Kind::Bed => bed::read(text, ROOM).map(|(bed, rows)| (bed_numbers(&bed), rows))?,
        Kind::Psl => psl::read(text, ROOM).map(|(psl, rows)| (psl_numbers(&psl), rows))?,
        Kind::Chain => read_chain(text).map(|(chain, rows)| (chain_numbers(&chain), rows))?,
    };
    for row in rows {
        numbers.extend([row.target, row.query, row.size]);
    }
    Ok(numbers)
}

fn bed_numbers(bed: &bed::Bed) -> Vec<u64> {
    let [red, green, blue] = bed.colour;
    vec![
        bed.word_count,
        bed.chrom.start,
        bed.chrom.length,
        bed.chrom_start,
        bed.chrom_end,
        bed.name.start,
        bed.name.length,
        bed.score,
        u64::from(bed.strand.letter()),
        bed.thick_start,
        bed.thick_end,
        red * 65_536 + green * 256 + blue,
        bed.block_count,
    ]
}

fn psl_numbers(psl: &psl::Psl) -> Vec<u64> {
    vec![
        psl.matches,
        psl.mis_matches,
        psl.rep_matches,
        psl.n_count,
        psl.q_inserts.number,
        psl.q_inserts.bases,
        psl.t_inserts.number,
        psl.t_inserts.bases,
        u64::from(psl.strand.letter()),
        psl.q_name.start,
        psl.q_name.length,
        psl.q_size,
        psl.q_start,
        psl.q_end,
        psl.t_name.start,
        psl.t_name.length,
        psl.t_size,
        psl.t_start,
        psl.t_end,
        psl.block_count,
    ]
}

fn chain_numbers(chain: &Chain) -> Vec<u64> {
    vec![
        chain.score,
        chain.t_name.start,
        chain.t_name.length,
        chain.t_size,
        chain.t_start,
        chain.t_end,
        chain.q_name.start,
        chain.q_name.length,
        chain.q_size,
        u64::from(chain.q_strand.letter()),
        chain.q_start,
        chain.q_end,
        chain.id,
        chain.block_count,
    ]
}

pub fn format(kind: Kind, text: &[u8]) -> Answer<Vec<u8>> {
    match kind {
        Kind::Bed => {
            let (bed, rows) = bed::read(text, ROOM)?;
            bed::write(&bed, bed.names(text), &rows, ROOM)
        }
        Kind::Psl => {
            let (psl, rows) = psl::read(text, ROOM)?;
            psl::write(&psl, psl.names(text), &rows, ROOM)
        }
        Kind::Chain => {
            let (chain, rows) = read_chain(text)?;
            chain::write(&chain, chain.names(text), &rows, ROOM)
        }
    }
}

pub fn read_chain(text: &[u8]) -> Answer<(Chain, Vec<Row>)> {
    chain::read(text, ROOM)
}

/// Bases in pairs. The second program lists them one by one, so the lifts of
/// chains with very many are left to the worked cases.
pub fn bases(rows: &[Row]) -> u128 {
    rows::bases(rows)
}

pub fn convert(start: u64, end: u64, size: u64) -> Answer<Vec<u64>> {
    lift::convert(size, start, end).map(|(start, end)| vec![start, end])
}

pub fn lift_position(text: &[u8], position: u64) -> Answer<Vec<u64>> {
    let (chain, rows) = read_chain(text)?;
    let lifted = lift::lift_position(&chain, &rows, position)?;
    Ok(vec![lifted.partner, lifted.drift as u64])
}

pub fn lift_region(text: &[u8], start: u64, end: u64) -> Answer<Vec<u64>> {
    let (chain, rows) = read_chain(text)?;
    let lifted = lift::lift_region(&chain, &rows, start, end)?;
    Ok(vec![lifted.kept, lifted.dropped, lifted.start, lifted.end])
}

pub fn turn(text: &[u8]) -> Answer<Vec<u8>> {
    let (chain, rows) = read_chain(text)?;
    let (turned, turned_rows) = lift::turn(&chain, &rows, ROOM)?;
    let names = chain.names(text);
    let exchanged = chain::Names {
        target: names.query,
        query: names.target,
    };
    chain::write(&turned, exchanged, &turned_rows, ROOM)
}

/// The numbers of a text, with room for so many.
pub fn numbers(text: &[u8], room: usize) -> Answer<Vec<u64>> {
    numbers::read(text, room)
}

/// The tally in lent bytes. One of fewer than 24 bytes is a bad one.
fn tally_in(lent: &[u8]) -> Tally {
    let numbers = numbers_in(lent);
    let (asked, kept, dropped) = match numbers[..] {
        [asked, kept, dropped, ..] => (asked, kept, dropped),
        _ => (1, 0, 0),
    };
    Tally {
        asked,
        kept,
        dropped,
    }
}

/// The numbers of 8 bytes at the front of these.
fn numbers_in(bytes: &[u8]) -> Vec<u64> {
    let number = |eight: &[u8]| u64::from_le_bytes(eight.try_into().unwrap());
    bytes.chunks_exact(8).map(number).collect()
}

/// A tally, put back where it was lent if there is room for one.
fn keep_tally(lent: &mut [u8], tally: Tally) {
    if let Some(front) = lent.get_mut(..24) {
        let fields = [tally.asked, tally.kept, tally.dropped];
        front.copy_from_slice(&fields.map(u64::to_le_bytes).concat());
    }
}

/// One region with a tally, which grows in place. The bases kept.
pub fn tally(text: &[u8], start: u64, end: u64, lent: &mut [u8]) -> Answer<u64> {
    let (chain, rows) = read_chain(text)?;
    let (left, answer) = lift::step(&chain, &rows, start, end, tally_in(lent));
    keep_tally(lent, left);
    answer.map(|lifted| lifted.kept)
}

/// Bytes of a region, and of an answer's row.
pub const REGION: usize = 16;
pub const BATCH_ROW: usize = 40;

/// A batch of regions in bytes; the tally and the rows of answers are left in what is lent.
/// Too few whole rows, or regions of other than 16 bytes each, are 11 before the text is read.
/// The number of regions.
pub fn lift_batch(text: &[u8], regions: &[u8], tally: &mut [u8], out: &mut [u8]) -> Answer<u64> {
    let asked: Vec<(u64, u64)> = numbers_in(regions)
        .chunks_exact(2)
        .map(|two| (two[0], two[1]))
        .collect();
    let room = out.len() / BATCH_ROW;
    let enough = regions.len().is_multiple_of(REGION) && asked.len() <= room;
    require(enough, Reason::NoRoom, 0)?;
    let (chain, rows) = read_chain(text)?;
    let (left, answers) = lift::batch(&chain, &rows, &asked, room, tally_in(tally))?;
    keep_tally(tally, left);
    for (bytes, row) in out.chunks_exact_mut(BATCH_ROW).zip(answers) {
        bytes.copy_from_slice(&row.map(u64::to_le_bytes).concat());
    }
    Ok(asked.len() as u64)
}

/// A region and the chain's text that it is sent through.
pub struct Sent {
    pub text: Vec<u8>,
    pub start: u64,
    pub end: u64,
}

/// The sums over a list of regions, counted in the pairs of their chains. A text
/// that is no chain is passed over.
pub fn sums(sent: &[Sent]) -> Tally {
    let read: Vec<_> = sent
        .iter()
        .filter_map(|sent| Some((read_chain(&sent.text).ok()?, sent)))
        .collect();
    let regions: Vec<lift::Sent> = read
        .iter()
        .map(|((chain, table), sent)| lift::Sent {
            chain,
            table,
            start: sent.start,
            end: sent.end,
        })
        .collect();
    lift::sums(&regions)
}
