//! A plain lift: every line by itself, every chain of its target tried, every answer by a
//! call of its own.

use tenderchock::{format, lift_position, lift_region, Bed, Chain, Kind, LiftedRegion};
use tenderchock::{Refusal, Strand, Tally};

/// How a file is lifted, as the command line says it and as it is done here.
#[derive(Clone, Copy)]
pub struct How {
    pub words: &'static str,
    best: bool,
    all: bool,
    drop: bool,
    span: bool,
    /// In hundredths.
    min_kept: u64,
    max_grow: u64,
}

pub const USUAL: How = How {
    words: "",
    best: false,
    all: false,
    drop: false,
    span: false,
    min_kept: 100,
    max_grow: 2,
};
pub const LOOSE: How = How {
    words: "--several all --drop-blocks --min-kept 0.25 --max-grow 9",
    all: true,
    drop: true,
    min_kept: 25,
    max_grow: 9,
    ..USUAL
};
pub const SPAN: How = How {
    words: "--several best --span --min-kept 0.5",
    best: true,
    span: true,
    min_kept: 50,
    ..USUAL
};

/// What is written, and the tally.
#[derive(Default)]
pub struct Plain {
    pub out: String,
    pub unmapped: String,
    pub tally: Tally,
}

struct Held<'c> {
    text: &'c [u8],
    chain: Chain<'c>,
}

#[derive(Clone, Copy)]
struct Part {
    start: u64,
    end: u64,
}

impl Part {
    fn through(&self, held: &Held) -> Result<LiftedRegion, Refusal> {
        lift_region(held.text, self.start, self.end)
    }
}

/// A lost part: which one, where it stands, and why.
type Lost = (usize, Part, String);

impl Plain {
    pub fn of(chains: &[&[u8]], file: &str, how: How) -> Plain {
        let held = |text| Held {
            text,
            chain: Chain::parse(text).expect("a chain"),
        };
        let held: Vec<Held> = chains.iter().copied().map(held).collect();
        let mut plain = Plain::default();
        let cell_error = Refusal {
            number: 6,
            place: 0,
        };
        for (number, line) in (1..).zip(file.split_terminator('\n')) {
            let read = match line {
                _ if line.starts_with("#N/A") => Err(cell_error),
                _ if line.starts_with('#') || line.starts_with("track") => continue,
                _ => Bed::parse(line.as_bytes()),
            };
            let lifted = match read {
                Ok(bed) => plain.line(&held, number, &bed, how),
                Err(refusal) => {
                    let (number, column) = (refusal.number, refusal.place + 1);
                    let meaning = refusal.meaning();
                    Err(format!("refused by {number} at column {column}: {meaning}"))
                }
            };
            if let Err(why) = lifted {
                plain.unmapped += &format!("# {why}\n{line}\n");
            }
        }
        plain
    }

    fn line(&mut self, held: &[Held], number: usize, bed: &Bed, how: How) -> Result<(), String> {
        let blocks = blocks(bed);
        let span = Part {
            start: bed.chrom_start,
            end: bed.chrom_end,
        };
        let parts = if how.span { vec![span] } else { blocks.clone() };
        let through = chosen(held, bed.chrom, &parts, how)?;
        for held in &through {
            for part in &parts {
                let _ = self.tally.add(held.text, part.start, part.end);
            }
        }
        let lifted = |held: &&Held| lifted(held, bed, &parts, how);
        let all: Vec<Result<_, String>> = through.iter().map(lifted).collect();
        if all.iter().all(Result::is_err) {
            return all
                .into_iter()
                .next()
                .map_or(Ok(()), |first| first.map(drop));
        }
        for (held, lifted) in through.iter().zip(all) {
            let Ok((line, mut lost)) = lifted else {
                continue;
            };
            self.out += &line;
            if how.span {
                lost = sorted_out(held, &blocks, |_| Ok(())).1;
            }
            for lost in &lost {
                let without = told(lost, blocks.len());
                self.unmapped += &format!("# line {number} is lifted without {without}\n");
            }
        }
        Ok(())
    }
}

fn blocks(bed: &Bed) -> Vec<Part> {
    let block = |row: &tenderchock::Row| Part {
        start: row.target_start,
        end: row.target_start + row.size,
    };
    bed.rows.iter().map(block).collect()
}

/// The chains that a line goes through.
fn chosen<'h>(
    held: &'h [Held<'h>],
    chrom: &[u8],
    parts: &[Part],
    how: How,
) -> Result<Vec<&'h Held<'h>>, String> {
    let named = || held.iter().filter(|held| held.chain.t_name == chrom);
    let keeps = |held: &&Held| parts.iter().any(|part| part.through(held).is_ok());
    let mut kept: Vec<&Held> = named().filter(keeps).collect();
    if kept.is_empty() {
        kept.extend(named().next());
    }
    if kept.is_empty() {
        return Err(format!("no chain has the target {}", chrom.escape_ascii()));
    }
    if how.best {
        kept.sort_by_key(|held| (u64::MAX - held.chain.score, held.chain.id));
        kept.truncate(1);
    }
    if kept.len() > 1 && !how.all {
        let ids: Vec<String> = kept.iter().map(|held| held.chain.id.to_string()).collect();
        let (count, ids) = (ids.len(), ids.join(", "));
        return Err(format!(
            "it keeps bases in {count} chains, with the ids {ids}"
        ));
    }
    Ok(kept)
}

/// The parts that are kept and those that are lost, by the library or by this test.
fn sorted_out(
    held: &Held,
    parts: &[Part],
    test: impl Fn(&LiftedRegion) -> Result<(), String>,
) -> (Vec<(Part, LiftedRegion)>, Vec<Lost>) {
    let (mut kept, mut lost) = (Vec::new(), Vec::new());
    for (at, part) in (1..).zip(parts) {
        let region = part.through(held).map_err(|refusal| match refusal.number {
            12 if parts.len() > 1 => "no pair".to_string(),
            number => format!("refused by {number}: {}", refusal.meaning()),
        });
        match region.and_then(|region| test(&region).map(|()| region)) {
            Ok(region) => kept.push((*part, region)),
            Err(why) => lost.push((at, *part, why)),
        }
    }
    (kept, lost)
}

fn told(lost: &Lost, of: usize) -> String {
    let (at, Part { start, end }, why) = lost;
    match of {
        1 => why.clone(),
        _ => format!("block {at} of {of} ({start}-{end}): {why}"),
    }
}

/// The line through one chain, and the parts that it leaves behind; or why there is none.
fn lifted(held: &Held, bed: &Bed, parts: &[Part], how: How) -> Result<(String, Vec<Lost>), String> {
    let (mut kept, lost) = sorted_out(held, parts, |region| {
        let LiftedRegion { kept, dropped, .. } = region;
        let (asked, length) = (kept + dropped, region.end - region.start);
        if 100 * kept < how.min_kept * asked {
            return Err(format!("keeps {kept} of {asked} bases"));
        }
        let grown = format!("its query region has {length} bases, and {asked} were asked");
        (length <= how.max_grow * asked).then_some(()).ok_or(grown)
    });
    if let Some(first) = lost.first().filter(|_| kept.is_empty() || !how.drop) {
        let others = match lost.len() - 1 {
            0 => String::new(),
            1 => "; and 1 other is lost".to_string(),
            more => format!("; and {more} others are lost"),
        };
        return Err(told(first, parts.len()) + &others);
    }
    let (start, end) = (kept[0].0.start, kept[kept.len() - 1].0.end);
    if held.chain.q_strand == Strand::Minus {
        kept.reverse();
    }
    let regions: Vec<LiftedRegion> = kept.iter().map(|(_, region)| *region).collect();
    let (length, asked) = (
        regions[regions.len() - 1].end - regions[0].start,
        end - start,
    );
    if regions.len() > 1 && length > how.max_grow * asked {
        return Err(format!(
            "its blocks are lifted to a region of {length} bases, and stood in one of {asked}"
        ));
    }
    let thick = thick(held, bed, Part { start, end });
    Ok((spelt(held, bed, &regions, thick, how), lost))
}

/// The thick part, from its first paired base to its last, found base by base.
fn thick(held: &Held, bed: &Bed, within: Part) -> Option<(u64, u64)> {
    let (start, end) = (
        bed.thick_start.max(within.start),
        bed.thick_end.min(within.end),
    );
    let lifted = |position| Some(lift_position(held.text, position).ok()?.partner);
    let mut paired = (start..end).filter_map(lifted);
    let first = paired.next()?;
    let last = paired.next_back().unwrap_or(first);
    Some((first.min(last), first.max(last) + 1))
}

/// The line, from its regions in the query's order.
fn spelt(
    held: &Held,
    bed: &Bed,
    regions: &[LiftedRegion],
    thick: Option<(u64, u64)>,
    how: How,
) -> String {
    let (start, end) = (regions[0].start, regions[regions.len() - 1].end);
    let thick = thick.unwrap_or((start, start));
    let list = |number: &dyn Fn(&LiftedRegion) -> u64| -> String {
        let spelt = |region| format!("{},", number(region));
        regions.iter().map(spelt).collect()
    };
    let strand = match held.chain.q_strand {
        Strand::Minus => bed.strand.opposite(),
        _ => bed.strand,
    };
    let [red, green, blue] = bed.item_rgb;
    let words = [
        held.chain.q_name.escape_ascii().to_string(),
        start.to_string(),
        end.to_string(),
        bed.name.escape_ascii().to_string(),
        bed.score.to_string(),
        strand.letter().to_string(),
        thick.0.to_string(),
        thick.1.to_string(),
        format!("{red},{green},{blue}"),
        regions.len().to_string(),
        list(&|region| region.end - region.start),
        list(&|region| region.start - start),
    ];
    let count = match bed.word_count as usize {
        count if how.span => count.min(6),
        7 if thick.1 != end => 8,
        count => count,
    };
    let line = format(Kind::Bed, words[..count].join("\t").as_bytes());
    String::from_utf8(line.expect("a BED line")).expect("plain bytes")
}
