//! A BED line on the query: its blocks as the library lifted them, its thick part,
//! and the other columns. The library writes the line.

use std::io::Write;

use crate::args::Lifting;
use crate::chains::Held;
use crate::loss::{self, Loss, LostPart};
use crate::part::Part;
use crate::ready::Sent;
use crate::round::Answer;
use crate::thick;
use crate::why::Why;
use tenderchock::{Bed, Kind, LiftedRegion, Room};

/// A line that is lifted, and what is to be told of it.
pub struct Lifted {
    pub line: Vec<u8>,
    /// The blocks that are lost, and why.
    pub without: Vec<String>,
    /// What became of the thick part, if it changed.
    pub moved: Vec<String>,
    /// Whether bases are dropped.
    pub shortened: bool,
}

/// The parts of a line that are lifted by themselves.
pub fn parts(bed: &Bed, options: &Lifting) -> Vec<Part> {
    match options.span {
        true => vec![Part::span(bed)],
        false => Part::blocks(bed),
    }
}

/// What is to be asked of the chain besides: where the thick part goes; or, of a line
/// that is lifted by its span, which blocks keep something. A line that isn't lifted
/// asks nothing.
pub fn questions(bed: &Bed, sent: &Sent, options: &Lifting) -> Vec<Part> {
    let asks = match options.span {
        // A block alone is the span itself.
        true => bed.rows.len() > 1,
        false => thick::is_there(bed),
    };
    match asks.then(|| Placed::of(sent, options)) {
        None | Some(Err(_)) => Vec::new(),
        Some(Ok(_)) if options.span => Part::blocks(bed),
        Some(Ok(placed)) => thick::questions(bed, placed.target),
    }
}

/// The line on the query, or why there is none.
pub fn lifted(bed: &Bed, sent: &Sent, options: &Lifting, room: &mut Room) -> Result<Lifted, Why> {
    let placed = Placed::of(sent, options)?;
    let (thick, moved) = match thick::is_there(bed) && !options.span {
        true => thick::lifted(bed, placed.target, sent.more),
        false => (None, Vec::new()),
    };
    let line = line(bed, sent.chain, &placed, thick, options);
    let line = room.format(Kind::Bed, &line).map_err(Why::Refused)?;
    let lost = match options.span {
        true => lost_in_span(bed, sent.more),
        false => placed.lost,
    };
    Ok(Lifted {
        line: line.to_vec(),
        without: lost.iter().map(LostPart::told).collect(),
        moved,
        shortened: placed.kept.iter().any(|(_, region)| region.dropped > 0),
    })
}

/// The parts of a line that are kept, in the target's order, those that are lost, and
/// where the kept ones stand, all together, on the target and on the query.
struct Placed {
    kept: Vec<(Part, LiftedRegion)>,
    lost: Vec<LostPart>,
    target: Part,
    query: Part,
}

impl Placed {
    /// Parts are lost only if that may be, and the others must not grow apart.
    fn of(sent: &Sent, options: &Lifting) -> Result<Placed, Why> {
        let of = sent.parts.len();
        let (mut kept, mut lost) = (Vec::with_capacity(of), Vec::new());
        for (at, (part, answer)) in (1..).zip(sent.parts.iter().zip(sent.answers)) {
            let part = *part;
            match loss::tested(*answer, options) {
                Ok(region) => kept.push((part, region)),
                Err(loss) => lost.push(LostPart { at, of, part, loss }),
            }
        }
        if let Some(first) = lost.first() {
            if kept.is_empty() || !options.drop_blocks {
                return Err(Why::Lost(*first, lost.len() - 1));
            }
        }
        let target = Part::around(kept.iter().map(|(part, _)| *part));
        let query = Part::around(kept.iter().map(|(_, region)| Part::of_region(region)));
        let (length, asked) = (query.length(), target.length());
        if kept.len() > 1 && !options.max_grow.is_kept_to(length, asked) {
            return Err(Why::Apart(length, asked));
        }
        Ok(Placed {
            kept,
            lost,
            target,
            query,
        })
    }
}

/// Puts a column's word behind the line so far.
type Column<'l> = &'l dyn Fn(&mut Vec<u8>);

/// The line on the query, for the library to write. A thick part without a length stands
/// where the line begins.
fn line(
    bed: &Bed,
    chain: &Held,
    placed: &Placed,
    thick: Option<Part>,
    options: &Lifting,
) -> Vec<u8> {
    let strand = match chain.minus {
        true => bed.strand.opposite(),
        false => bed.strand,
    };
    let regions = placed.kept.iter().map(|(_, region)| region);
    let mut blocks: Vec<Part> = regions.map(Part::of_region).collect();
    blocks.sort_by_key(|block| block.start);
    let Part { start, end } = placed.query;
    let thick = thick.unwrap_or(Part { start, end: start });
    let columns: [Column; 12] = [
        &|line| line.extend_from_slice(&chain.q_name),
        &|line| put(line, start),
        &|line| put(line, end),
        &|line| line.extend_from_slice(bed.name),
        &|line| put(line, bed.score),
        &|line| line.push(strand.letter() as u8),
        &|line| put(line, thick.start),
        &|line| put(line, thick.end),
        &|line| put_list(line, bed.item_rgb.iter().map(|part| u64::from(*part))),
        &|line| put(line, blocks.len() as u64),
        &|line| put_list(line, blocks.iter().map(|block| block.length())),
        &|line| put_list(line, blocks.iter().map(|block| block.start - start)),
    ];
    let mut line = Vec::new();
    let count = column_count(bed, thick.end == end, options);
    for (at, column) in columns.iter().take(count).enumerate() {
        line.extend((at > 0).then_some(b'\t'));
        column(&mut line);
    }
    line
}

/// As many columns as the line had. A seventh alone says that the thick part ends
/// where the line does; where that is no longer so, an eighth says where.
fn column_count(bed: &Bed, thick_to_end: bool, options: &Lifting) -> usize {
    match bed.word_count {
        count if options.span => count.min(6) as usize,
        7 if !thick_to_end => 8,
        count => count as usize,
    }
}

fn put(line: &mut Vec<u8>, number: u64) {
    // Nothing can fail: a line grows as it must.
    let _ = write!(line, "{number}");
}

fn put_list(line: &mut Vec<u8>, numbers: impl Iterator<Item = u64>) {
    for (at, number) in numbers.enumerate() {
        line.extend((at > 0).then_some(b','));
        put(line, number);
    }
}

/// The blocks that keep nothing in a line that is lifted by its span.
fn lost_in_span(bed: &Bed, answers: &[Answer]) -> Vec<LostPart> {
    let of = bed.rows.len();
    let lost = |(at, (part, answer)): (usize, (Part, &Answer))| {
        let loss = Loss::Refused(answer.err()?);
        Some(LostPart { at, of, part, loss })
    };
    let blocks = Part::blocks(bed).into_iter().zip(answers);
    (1..).zip(blocks).filter_map(lost).collect()
}
