//! The texts of the jobs, drawn from fixed seeds, and damage to them.

use crate::fast;
use tenderchock::Kind;

pub const NUMBERS: u64 = 3_000;
const LINES: u64 = 100;
const FIRST_TARGET: u64 = 1_000_000;
const FIRST_QUERY: u64 = 2_000_000;

/// A number that depends on `seed` alone (splitmix64).
fn mixed(seed: u64) -> u64 {
    let mut mixed = seed.wrapping_add(1).wrapping_mul(0x9E37_79B9_7F4A_7C15);
    mixed = (mixed ^ (mixed >> 30)).wrapping_mul(0xBF58_476D_1CE4_E5B9);
    mixed = (mixed ^ (mixed >> 27)).wrapping_mul(0x94D0_49BB_1331_11EB);
    mixed ^ (mixed >> 31)
}

/// A number of so many digits.
fn of_digits(seed: u64, digits: u64) -> u64 {
    let least = 10u64.pow(digits as u32 - 1);
    least + mixed(seed) % (9 * least)
}

pub fn numbers() -> Vec<u8> {
    let words: Vec<String> = (0..NUMBERS)
        .map(|at| of_digits(at, mixed(at + 8_000) % 18 + 1).to_string())
        .collect();
    format!("{}\n", words.join(" ")).into_bytes()
}

pub fn scores() -> Vec<Vec<u8>> {
    (0..NUMBERS)
        .map(|at| {
            let score = of_digits(at, at % 18 + 1);
            format!("chain {score} t 1 + 0 1 q 1 + 0 1 0\n1").into_bytes()
        })
        .collect()
}

pub fn long_list() -> Vec<u8> {
    let items: Vec<String> = (0..NUMBERS)
        .map(|at| of_digits(at, at % 10 + 1).min(fast::LIMIT).to_string())
        .collect();
    format!("c 0 9 n 0 . 0 9 0 1 {} 0", items.join(",")).into_bytes()
}

/// Lines of an exon list, two blocks each, cut to so many words.
pub fn exons(words: usize) -> Vec<Vec<u8>> {
    let cut = |line: String| {
        let words: Vec<&str> = line.split('\t').take(words).collect();
        format!("{}\n", words.join("\t")).into_bytes()
    };
    (0..LINES).map(exon).map(cut).collect()
}

fn exon(at: u64) -> String {
    let drawn = |column: u64, below: u64| mixed(at + 10_000 * column) % below;
    let (chrom, start) = (1 + drawn(1, 22), drawn(2, 240_000_000));
    let (size, last_size) = (50 + drawn(3, 500), 50 + drawn(4, 2_000));
    let last_start = size + drawn(5, 20_000);
    let end = start + last_start + last_size;
    let (name, score) = (100_000 + drawn(6, 900_000), drawn(7, 1_001));
    let strand = ["+", "-"][drawn(8, 2) as usize];
    let (thick_start, thick_end) = (start + drawn(9, size), end - drawn(10, last_size));
    let colour = ["0", "0", "0", "255,0,0"][drawn(11, 4) as usize];
    format!("chr{chrom}\t{start}\t{end}\tNM_{name}\t{score}\t{strand}\t{thick_start}\t{thick_end}\t{colour}\t2\t{size},{last_size},\t0,{last_start},")
}

/// A text of this kind with so many blocks.
pub fn text(kind: Kind, blocks: u64) -> Vec<u8> {
    let blocks = Blocks::drawn(blocks);
    let text = match kind {
        Kind::Bed => bed(&blocks),
        Kind::Psl => psl(&blocks),
        Kind::Chain => chain(&blocks),
    };
    text.into_bytes()
}

/// Blocks with gaps between them; the last has none behind it.
struct Blocks {
    sizes: Vec<u64>,
    t_gaps: Vec<u64>,
    q_gaps: Vec<u64>,
    t_starts: Vec<u64>,
    q_starts: Vec<u64>,
    t_end: u64,
    q_end: u64,
}

impl Blocks {
    fn drawn(count: u64) -> Blocks {
        let gap = |at: u64, drawn: u64| if at + 1 == count { 0 } else { drawn };
        let sizes: Vec<u64> = (0..count).map(|at| 1 + mixed(at) % 5_000).collect();
        let t_gaps = (0..count).map(|at| gap(at, mixed(at + 1_000) % 900));
        let q_gaps = (0..count).map(|at| gap(at, mixed(at + 2_000) % 3 * 70));
        let (t_gaps, q_gaps): (Vec<u64>, Vec<u64>) = (t_gaps.collect(), q_gaps.collect());
        let (t_starts, t_end) = laid(FIRST_TARGET, &sizes, &t_gaps);
        let (q_starts, q_end) = laid(FIRST_QUERY, &sizes, &q_gaps);
        Blocks {
            sizes,
            t_gaps,
            q_gaps,
            t_starts,
            q_starts,
            t_end,
            q_end,
        }
    }
}

/// Where blocks start on one side, and where the last ends.
fn laid(first: u64, sizes: &[u64], gaps: &[u64]) -> (Vec<u64>, u64) {
    let mut at = first;
    let starts = sizes.iter().zip(gaps).map(|(size, gap)| {
        at += size + gap;
        at - gap - size
    });
    (starts.collect(), at)
}

fn listed(numbers: &[u64]) -> String {
    numbers.iter().map(|number| format!("{number},")).collect()
}

fn bed(blocks: &Blocks) -> String {
    let (count, end, sizes) = (blocks.sizes.len(), blocks.t_end, listed(&blocks.sizes));
    let starts = blocks.t_starts.iter().map(|start| start - FIRST_TARGET);
    let starts = listed(&starts.collect::<Vec<u64>>());
    format!("chr7\t{FIRST_TARGET}\t{end}\tpanel\t960\t-\t{FIRST_TARGET}\t{end}\t0,128,255\t{count}\t{sizes}\t{starts}\n")
}

fn psl(blocks: &Blocks) -> String {
    let Blocks { t_end, q_end, .. } = blocks;
    let count = blocks.sizes.len();
    let bases: u64 = blocks.sizes.iter().sum();
    let inserts = |gaps: &[u64]| {
        let nonempty = gaps.iter().filter(|gap| **gap > 0).count();
        format!("{nonempty}\t{}", gaps.iter().sum::<u64>())
    };
    let (q_inserts, t_inserts) = (inserts(&blocks.q_gaps), inserts(&blocks.t_gaps));
    let (q_size, t_size) = (q_end + 500, t_end + 500);
    let (q_from, q_to) = (q_size - q_end, q_size - FIRST_QUERY);
    let (sizes, t_starts) = (listed(&blocks.sizes), listed(&blocks.t_starts));
    let q_starts = listed(&blocks.q_starts);
    format!("{bases}\t0\t0\t0\t{q_inserts}\t{t_inserts}\t-\tclone\t{q_size}\t{q_from}\t{q_to}\tchr7\t{t_size}\t{FIRST_TARGET}\t{t_end}\t{count}\t{sizes}\t{q_starts}\t{t_starts}\n")
}

fn chain(blocks: &Blocks) -> String {
    let Blocks { t_end, q_end, .. } = blocks;
    let (t_size, q_size) = (t_end + 500, q_end + 500);
    let header = format!("chain 4900 chr7 {t_size} + {FIRST_TARGET} {t_end} clone {q_size} - {FIRST_QUERY} {q_end} 1\n");
    let last = blocks.sizes.len() - 1;
    let lines = (0..=last).map(|at| {
        let (size, dt, dq) = (blocks.sizes[at], blocks.t_gaps[at], blocks.q_gaps[at]);
        match at == last {
            true => format!("{size}\n"),
            false => format!("{size} {dt} {dq}\n"),
        }
    });
    header + &lines.collect::<String>()
}

/// Regions of up to 2,000 bases somewhere in the target of a chain of so many blocks.
pub fn regions(count: u64, blocks: u64) -> Vec<(u64, u64)> {
    let span = Blocks::drawn(blocks).t_end - FIRST_TARGET;
    let region = |at| {
        let start = FIRST_TARGET + mixed(at + 3_000) % (span - 2_000);
        (start, start + 1 + mixed(at + 4_000) % 2_000)
    };
    (0..count).map(region).collect()
}

/// Regions of all sorts for a chain of so many blocks, in drawn order, as the library
/// takes them: start and end, 8 bytes each.
pub fn batch(count: u64, blocks: u64) -> Vec<u8> {
    let blocks = Blocks::drawn(blocks);
    let region = |at| {
        let drawn = |column: u64, below: u64| mixed(at + 100_000 * column) % below.max(1);
        let (start, end) = region_of(&blocks, drawn);
        [start.to_le_bytes(), end.to_le_bytes()]
    };
    (0..count).flat_map(region).flatten().collect()
}

/// Of 100 regions some 60 are short, 16 long, 15 in a gap, 4 before the first block,
/// 3 past the last, and 2 not inside the target.
fn region_of(blocks: &Blocks, drawn: impl Fn(u64, u64) -> u64) -> (u64, u64) {
    let (t_end, t_size) = (blocks.t_end, blocks.t_end + 500);
    // A region between these two places.
    let between = |low: u64, high: u64| {
        let start = low + drawn(2, high - low);
        (start, start + 1 + drawn(3, high - start))
    };
    match drawn(1, 100) {
        0..60 => {
            let start = FIRST_TARGET + drawn(2, t_end - FIRST_TARGET);
            (start, t_size.min(start + 1 + drawn(3, 2_000)))
        }
        60..75 => between(FIRST_TARGET, t_end),
        75 => (drawn(2, FIRST_TARGET), t_size),
        76..91 => {
            let block = drawn(4, blocks.sizes.len() as u64) as usize;
            let gap = blocks.t_starts[block] + blocks.sizes[block];
            between(gap, gap + blocks.t_gaps[block].max(1))
        }
        91..95 => between(0, FIRST_TARGET),
        95..98 => between(t_end, t_size),
        98 => between(t_size, t_size + 2_000),
        _ => (t_end, FIRST_TARGET + drawn(2, t_end - FIRST_TARGET)),
    }
}

/// A text with one byte changed, dropped or doubled.
pub fn damage(text: &[u8], seed: u64) -> Vec<u8> {
    let mut text = text.to_vec();
    let at = mixed(seed + 5_000) as usize % text.len();
    let bytes = b"0123456789,+-. \t\n\rx";
    match mixed(seed + 6_000) % 4 {
        0 => drop(text.remove(at)),
        1 => text.insert(at, text[at]),
        2 => text.truncate(at),
        _ => text[at] = bytes[mixed(seed + 7_000) as usize % bytes.len()],
    }
    text
}
