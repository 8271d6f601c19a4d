//! Lines with blocks, beside their exons lifted one by one: 10,000 drawn from a seed,
//! through chains of both strands.

mod common;

use std::collections::HashMap;

use common::{Dice, Folder};

const LINES: usize = 10_000;
const TARGET: u64 = 400_000;

/// A chain over a part of the target; its query's name is its own.
fn chain(dice: &mut Dice, id: u64, target: &str, start: u64, end: u64) -> String {
    let mut rows = Vec::new();
    let (mut at, mut query) = (start, 0);
    while at + 4_000 < end {
        let size = dice.roll(1, 2_500);
        let (dt, dq) = match dice.roll(0, 2) {
            0 => (dice.roll(1, 60), 0),
            1 => (0, dice.roll(1, 60)),
            _ => (dice.roll(1, 400), dice.roll(1, 400)),
        };
        rows.push(format!("{size} {dt} {dq}\n"));
        at += size + dt;
        query += size + dq;
    }
    rows.push("900\n".to_string());
    let (t_end, q_end, q_start) = (at + 900, query + 900, dice.roll(0, 500));
    let (strand, q_size) = (if id.is_multiple_of(2) { '-' } else { '+' }, q_end + 2_000);
    format!(
        "chain {id} {target} {TARGET} + {start} {t_end} q{id} {q_size} {strand} {q_start} {} {id}\n{}\n",
        q_start + q_end,
        rows.concat()
    )
}

/// A transcript: where its exons start and end, and its thick part.
struct Transcript {
    chrom: &'static str,
    exons: Vec<(u64, u64)>,
    thick: (u64, u64),
}

fn transcript(dice: &mut Dice) -> Transcript {
    let chrom = if dice.roll(0, 1) == 0 { "t1" } else { "t2" };
    let mut at = dice.roll(0, TARGET - 60_000);
    let mut exons = Vec::new();
    for _ in 0..dice.roll(1, 8) {
        let size = dice.roll(1, 150);
        exons.push((at, at + size));
        at += size + dice.roll(0, 1_500);
    }
    let first = exons[dice.roll(0, exons.len() as u64 - 1) as usize];
    let (start, end) = (exons[0].0, exons[exons.len() - 1].1);
    let thick = match dice.roll(0, 2) {
        0 => (start, end),
        1 => (first.0, first.1),
        _ => (first.0, end),
    };
    Transcript {
        chrom,
        exons,
        thick,
    }
}

impl Transcript {
    fn line(&self, name: usize) -> String {
        let (start, end) = (self.exons[0].0, self.exons[self.exons.len() - 1].1);
        let list = |number: &dyn Fn(&(u64, u64)) -> u64| -> String {
            self.exons
                .iter()
                .map(|exon| format!("{},", number(exon)))
                .collect()
        };
        format!(
            "{}\t{start}\t{end}\tx{name}\t0\t+\t{}\t{}\t0\t{}\t{}\t{}\n",
            self.chrom,
            self.thick.0,
            self.thick.1,
            self.exons.len(),
            list(&|exon| exon.1 - exon.0),
            list(&|exon| exon.0 - start)
        )
    }

    /// Each exon, and the first and last base of the thick part, as lines of their own.
    fn singles(&self, name: usize) -> String {
        let thick = [
            (self.thick.0, self.thick.0 + 1),
            (self.thick.1 - 1, self.thick.1),
        ];
        let all = self.exons.iter().chain(&thick).enumerate();
        all.map(|(at, (start, end))| {
            format!("{}\t{start}\t{end}\tx{name}.{at}\t0\t+\n", self.chrom)
        })
        .collect()
    }

    /// The line that the singles make, if all of them are lifted through one chain.
    fn wanted(&self, name: usize, singles: &HashMap<String, Single>) -> Option<String> {
        let count = self.exons.len();
        let found = |at: usize| singles.get(&format!("x{name}.{at}"));
        let mut exons = (0..count).map(found).collect::<Option<Vec<_>>>()?;
        let Single { chrom, strand, .. } = exons[0].clone();
        exons.sort_by_key(|exon| exon.start);
        let (start, end) = (exons[0].start, exons[count - 1].end);
        let asked = self.exons[count - 1].1 - self.exons[0].0;
        if exons.iter().any(|exon| exon.chrom != chrom) || end - start > 2 * asked {
            return None;
        }
        let (left, right) = (found(count)?, found(count + 1)?);
        let thick = (left.start.min(right.start), left.end.max(right.end));
        let list = |number: &dyn Fn(&Single) -> u64| -> String {
            exons
                .iter()
                .map(|exon| format!("{},", number(exon)))
                .collect()
        };
        Some(format!(
            "{chrom}\t{start}\t{end}\tx{name}\t0\t{strand}\t{}\t{}\t0\t{count}\t{}\t{}",
            thick.0,
            thick.1,
            list(&|exon| exon.end - exon.start),
            list(&|exon| exon.start - start)
        ))
    }
}

/// An exon on the query.
#[derive(Clone)]
struct Single {
    chrom: String,
    start: u64,
    end: u64,
    strand: String,
}

fn single(line: &str) -> (String, Single) {
    let words: Vec<&str> = line.split('\t').collect();
    let number = |at: usize| words[at].parse().expect("a number");
    let single = Single {
        chrom: words[0].to_string(),
        start: number(1),
        end: number(2),
        strand: words[5].to_string(),
    };
    (words[3].to_string(), single)
}

/// Four chains, and transcripts for them.
fn drawn() -> (String, Vec<Transcript>) {
    let mut dice = Dice(20_240_607);
    let chains: String = [
        chain(&mut dice, 1, "t1", 0, 150_000),
        chain(&mut dice, 2, "t1", 150_000, 390_000),
        chain(&mut dice, 4, "t2", 2_000, 300_000),
        chain(&mut dice, 5, "t2", 300_000, 399_000),
    ]
    .concat();
    let transcripts = (0..LINES).map(|_| transcript(&mut dice)).collect();
    (chains, transcripts)
}

/// Lifts the transcripts and their exons; answers the lines of both by name.
fn lifted(
    folder: &Folder,
    chains: &str,
    transcripts: &[Transcript],
) -> (HashMap<String, String>, HashMap<String, Single>) {
    let all = |text: fn(&Transcript, usize) -> String| -> String {
        let each = transcripts.iter().enumerate();
        each.map(|(name, one)| text(one, name)).collect()
    };
    folder.write("a.chain", chains);
    folder.write("lines.bed", all(Transcript::line));
    folder.write("singles.bed", all(Transcript::singles));
    for name in ["lines", "singles"] {
        let ran = folder.sh(&format!(
            "$T lift --quiet a.chain {name}.bed {name}.out {name}.bad"
        ));
        assert_eq!(ran.status, Some(1), "{}", ran.errors);
    }
    let named = |line: &str| (single(line).0, line.to_string());
    (
        folder.read("lines.out").lines().map(named).collect(),
        folder.read("singles.out").lines().map(single).collect(),
    )
}

#[test]
fn lines_are_lifted_as_their_exons_are() {
    let folder = Folder::new("blocks");
    let (chains, transcripts) = drawn();
    let (lines, singles) = lifted(&folder, &chains, &transcripts);
    let (mut plus, mut minus, mut lost) = (0, 0, 0);
    for (name, transcript) in transcripts.iter().enumerate() {
        let wanted = transcript.wanted(name, &singles);
        let found = lines.get(&format!("x{name}"));
        assert_eq!(found, wanted.as_ref(), "{}", transcript.line(name));
        match wanted {
            Some(line) if line.contains("\t+\t") => plus += 1,
            Some(_) => minus += 1,
            None => lost += 1,
        }
    }
    assert!(
        plus > 500 && minus > 500 && lost > 500,
        "{plus} {minus} {lost}"
    );
    // What is written is the library's own spelling.
    let ran = folder.sh("$T format --quiet --kind bed lines.out | cmp - lines.out");
    assert_eq!(ran.status, Some(0), "{}", ran.out);
}
