//! Rules that hold of many records, drawn by a small deterministic generator.

mod common;

use std::collections::BTreeMap;

use common::{chain_a, rows_of, Dice, BED_000, CHAIN_A, PSL_A, ROOM};
use reference::bed::{self, Bed};
use reference::chain::{self, Chain};
use reference::ledger::Strand;
use reference::lift::{self, Pair, Sent, Tally};
use reference::psl::{self, Inserts, Psl};
use reference::rows::Row;
use reference::text::Part;

const ROUNDS: u64 = 400;

fn part(name: &[u8]) -> Part {
    Part {
        start: 0,
        length: name.len() as u64,
    }
}

fn end_of(rows: &[Row]) -> (u64, u64) {
    let last = rows.last().unwrap();
    (last.target + last.size, last.query + last.size)
}

fn strand(dice: &mut Dice) -> Strand {
    if dice.chance(2) {
        Strand::Plus
    } else {
        Strand::Minus
    }
}

/// Any valid chain, with its names.
fn any_chain(dice: &mut Dice) -> (Chain, Vec<u8>, Vec<u8>, Vec<Row>) {
    let (target, query) = (dice.name(), dice.name());
    let (t_start, q_start) = (dice.between(0, 30), dice.between(0, 30));
    let rows = rows_of(&dice.blocks(), t_start, q_start);
    let (t_end, q_end) = end_of(&rows);
    let chain = Chain {
        score: dice.between(0, 999_999_999_999_999_999),
        t_name: part(&target),
        t_size: t_end + dice.between(0, 30),
        t_start,
        t_end,
        q_name: part(&query),
        q_size: q_end + dice.between(0, 30),
        q_strand: strand(dice),
        q_start,
        q_end,
        id: dice.between(0, 4_294_967_295),
        block_count: rows.len() as u64,
    };
    (chain, target, query, rows)
}

/// Any valid PSL record, made from a chain.
fn any_psl(dice: &mut Dice) -> (Psl, Vec<u8>, Vec<u8>, Vec<Row>) {
    let (chain, target, query, rows) = any_chain(dice);
    let inserts = |gap: &dyn Fn(&[Row]) -> u64| {
        let gaps: Vec<u64> = rows.windows(2).map(gap).collect();
        Inserts {
            number: gaps.iter().filter(|gap| **gap > 0).count() as u64,
            bases: gaps.iter().sum(),
        }
    };
    let bases: u64 = rows.iter().map(|row| row.size).sum();
    let matches = dice.between(0, bases);
    let mis_matches = dice.between(0, bases - matches);
    let (q_start, q_end) = match chain.q_strand {
        Strand::Minus => (chain.q_size - chain.q_end, chain.q_size - chain.q_start),
        _ => (chain.q_start, chain.q_end),
    };
    let psl = Psl {
        matches,
        mis_matches,
        rep_matches: 0,
        n_count: bases - matches - mis_matches,
        q_inserts: inserts(&|two| two[1].query - two[0].query - two[0].size),
        t_inserts: inserts(&|two| two[1].target - two[0].target - two[0].size),
        strand: chain.q_strand,
        q_name: chain.q_name,
        q_size: chain.q_size,
        q_start,
        q_end,
        t_name: chain.t_name,
        t_size: chain.t_size,
        t_start: chain.t_start,
        t_end: chain.t_end,
        block_count: chain.block_count,
    };
    (psl, target, query, rows)
}

/// Any valid BED record of 12 words or fewer.
fn any_bed(dice: &mut Dice) -> (Bed, Vec<u8>, Vec<u8>, Vec<Row>) {
    let word_count = [3, 4, 5, 6, 7, 8, 9, 12][dice.between(0, 7) as usize];
    let (chrom, name) = (dice.name(), dice.name());
    let blocks: Vec<_> = dice.blocks().iter().map(|b| (b.0, b.1, 0)).collect();
    let mut rows = rows_of(&blocks, dice.between(0, 30), 0);
    let (chrom_start, chrom_end) = (rows[0].target, end_of(&rows).0);
    if word_count < 12 {
        rows = rows_of(&[(chrom_end - chrom_start, 0, 0)], chrom_start, 0);
    }
    let mut bed = Bed {
        word_count,
        chrom: part(&chrom),
        chrom_start,
        chrom_end,
        name: part(&name),
        score: dice.between(0, 1000),
        strand: [Strand::Plus, Strand::Minus, Strand::Dot][dice.between(0, 2) as usize],
        thick_start: dice.between(chrom_start, chrom_end),
        thick_end: chrom_end,
        colour: [0, 0, 0].map(|_: u64| dice.between(0, 255)),
        block_count: rows.len() as u64,
    };
    bed.thick_end = dice.between(bed.thick_start, chrom_end);
    let name = leave_out(&mut bed, name);
    (bed, chrom, name, rows)
}

/// Puts the defaults into the columns left out, and answers the name that stays.
fn leave_out(bed: &mut Bed, name: Vec<u8>) -> Vec<u8> {
    if bed.word_count < 9 {
        bed.colour = [0, 0, 0];
    }
    if bed.word_count < 8 {
        bed.thick_end = bed.chrom_end;
    }
    if bed.word_count < 7 {
        bed.thick_start = bed.chrom_start;
    }
    if bed.word_count < 6 {
        bed.strand = Strand::Dot;
    }
    if bed.word_count < 5 {
        bed.score = 0;
    }
    if bed.word_count < 4 {
        bed.name = part(b"");
        return Vec::new();
    }
    name
}

#[test]
fn a_written_bed_line_reads_back() {
    let mut dice = Dice::new(1);
    for _ in 0..ROUNDS {
        let (bed, chrom, name, rows) = any_bed(&mut dice);
        let names = bed::Names {
            chrom: &chrom,
            name: &name,
        };
        assert_eq!(bed::check_record(&bed, &rows), Ok(()));
        let text = bed::write(&bed, names, &rows, ROOM).unwrap();
        let (back, back_rows) = bed::read(&text, rows.len()).unwrap();
        let right = (&back, back.names(&text), &back_rows[..]);
        assert!(bed::same((&bed, names, &rows), right));
        assert_eq!(back_rows, rows);
    }
}

#[test]
fn a_written_psl_line_reads_back() {
    let mut dice = Dice::new(2);
    for _ in 0..ROUNDS {
        let (psl, target, query, rows) = any_psl(&mut dice);
        let names = psl::Names {
            query: &query,
            target: &target,
        };
        assert_eq!(psl::check_record(&psl, &rows), Ok(()));
        let text = psl::write(&psl, names, &rows, ROOM).unwrap();
        let (back, back_rows) = psl::read(&text, rows.len()).unwrap();
        let right = (&back, back.names(&text), &back_rows[..]);
        assert!(psl::same((&psl, names, &rows), right));
        assert_eq!(back_rows, rows);
    }
}

#[test]
fn a_written_chain_reads_back() {
    let mut dice = Dice::new(3);
    for _ in 0..ROUNDS {
        let (chain, target, query, rows) = any_chain(&mut dice);
        let names = chain::Names {
            target: &target,
            query: &query,
        };
        assert_eq!(chain::check_record(&chain, &rows), Ok(()));
        let text = chain::write(&chain, names, &rows, ROOM).unwrap();
        let (back, back_rows) = chain::read(&text, rows.len()).unwrap();
        let right = (&back, back.names(&text), &back_rows[..]);
        assert!(chain::same((&chain, names, &rows), right));
        assert_eq!(back_rows, rows);
    }
}

/// The sample texts with a few bytes changed, dropped or doubled.
fn damaged(dice: &mut Dice, text: &[u8]) -> Vec<u8> {
    let mut text = text.to_vec();
    for _ in 0..dice.between(1, 3) {
        let at = dice.between(0, text.len() as u64 - 1) as usize;
        match dice.between(0, 3) {
            0 => text[at] = b"0123456789,+-. \t\n\r"[dice.between(0, 17) as usize],
            1 => text[at] = dice.between(0, 255) as u8,
            2 => text.insert(at, text[at]),
            _ => drop(text.remove(at)),
        }
    }
    text
}

#[test]
fn a_damaged_text_is_refused_inside_it_or_reads_back() {
    let mut dice = Dice::new(4);
    for _ in 0..20_000 {
        let text = damaged(&mut dice, BED_000);
        match bed::read(&text, ROOM) {
            Err(refusal) => assert!(refusal.place <= text.len()),
            Ok((bed, rows)) => {
                let names = bed.names(&text);
                let written = bed::write(&bed, names, &rows, ROOM).unwrap();
                let (back, back_rows) = bed::read(&written, ROOM).unwrap();
                let right = (&back, back.names(&written), &back_rows[..]);
                assert!(bed::same((&bed, names, &rows), right));
            }
        }
        let text = damaged(&mut dice, PSL_A);
        match psl::read(&text, ROOM) {
            Err(refusal) => assert!(refusal.place <= text.len()),
            Ok((psl, rows)) => {
                let names = psl.names(&text);
                let written = psl::write(&psl, names, &rows, ROOM).unwrap();
                let (back, back_rows) = psl::read(&written, ROOM).unwrap();
                let right = (&back, back.names(&written), &back_rows[..]);
                assert!(psl::same((&psl, names, &rows), right));
            }
        }
        let text = damaged(&mut dice, CHAIN_A);
        match chain::read(&text, ROOM) {
            Err(refusal) => assert!(refusal.place <= text.len()),
            Ok((chain, rows)) => {
                let names = chain.names(&text);
                let written = chain::write(&chain, names, &rows, ROOM).unwrap();
                let (back, back_rows) = chain::read(&written, ROOM).unwrap();
                let right = (&back, back.names(&written), &back_rows[..]);
                assert!(chain::same((&chain, names, &rows), right));
            }
        }
    }
}

/// A number near a limit, small, or anything.
fn any_number(dice: &mut Dice) -> u64 {
    match dice.between(0, 4) {
        0 => dice.between(0, 100),
        1 => dice.between(2_147_483_640, 2_147_483_650),
        2 => u64::MAX - dice.between(0, 3),
        3 => 0,
        _ => dice.next(),
    }
}

/// The writers agree with the record checkers, whatever they are handed.
#[test]
fn a_chain_is_written_exactly_when_its_record_is_accepted() {
    let mut dice = Dice::new(5);
    for _ in 0..20_000 {
        let (mut chain, mut rows) = chain_a();
        let number = any_number(&mut dice);
        match dice.between(0, 11) {
            0 => chain.score = number,
            1 => chain.t_size = number,
            2 => chain.t_start = number,
            3 => chain.t_end = number,
            4 => chain.q_size = number,
            5 => chain.q_start = number,
            6 => chain.q_end = number,
            7 => chain.id = number,
            8 => chain.block_count = number,
            9 => rows[dice.between(0, 2) as usize].target = number,
            10 => rows[dice.between(0, 2) as usize].query = number,
            _ => rows[dice.between(0, 2) as usize].size = number,
        }
        let accepted = chain::check_record(&chain, &rows).is_ok();
        let names = chain.names(CHAIN_A);
        assert_eq!(chain::write(&chain, names, &rows, ROOM).is_ok(), accepted);
        assert_eq!(lift::turn(&chain, &rows, 3).is_ok(), accepted);
    }
}

/// The partner of a base by block arithmetic, without the list of pairs.
fn partner(chain: &Chain, rows: &[Row], position: u64) -> Option<u64> {
    let row = rows
        .iter()
        .find(|row| row.target <= position && position < row.target + row.size)?;
    let base = row.query + (position - row.target);
    Some(match chain.q_strand {
        Strand::Minus => chain.q_size - 1 - base,
        _ => base,
    })
}

#[test]
fn a_position_lifts_exactly_when_it_stands_in_a_pair() {
    let mut dice = Dice::new(6);
    for _ in 0..ROUNDS / 4 {
        let (chain, _, _, rows) = any_chain(&mut dice);
        let pairs: BTreeMap<u64, u64> = lift::pairs(&chain, &rows)
            .unwrap()
            .map(|pair| (pair.target, pair.query))
            .collect();
        for position in 0..chain.t_size.min(300) {
            let lifted = lift::lift_position(&chain, &rows, position).ok();
            assert_eq!(
                lifted.map(|answer| answer.partner),
                pairs.get(&position).copied()
            );
            assert_eq!(
                lifted.map(|answer| answer.partner),
                partner(&chain, &rows, position)
            );
            if let Some(answer) = lifted {
                assert_eq!(
                    answer.drift + i128::from(position),
                    i128::from(answer.partner)
                );
            }
        }
    }
}

#[test]
fn a_region_keeps_the_bases_in_a_pair() {
    let mut dice = Dice::new(7);
    for _ in 0..ROUNDS {
        let (chain, _, _, rows) = any_chain(&mut dice);
        let start = dice.between(0, chain.t_size - 1);
        let end = dice.between(start + 1, chain.t_size);
        let partners: Vec<u64> = (start..end)
            .filter_map(|position| partner(&chain, &rows, position))
            .collect();
        match lift::lift_region(&chain, &rows, start, end) {
            Err(refusal) => {
                assert_eq!(refusal.reason.number(), 12);
                assert!(partners.is_empty());
            }
            Ok(lifted) => {
                assert_eq!(lifted.kept, partners.len() as u64);
                assert_eq!(lifted.kept + lifted.dropped, end - start);
                assert_eq!(Some(&lifted.start), partners.iter().min());
                assert_eq!(Some(&(lifted.end - 1)), partners.iter().max());
            }
        }
    }
}

#[test]
fn a_turned_chain_has_the_same_pairs_and_turns_back() {
    let mut dice = Dice::new(8);
    for _ in 0..ROUNDS {
        let (chain, _, _, rows) = any_chain(&mut dice);
        let (turned, turned_rows) = lift::turn(&chain, &rows, rows.len()).unwrap();
        let mut exchanged: Vec<Pair> = lift::pairs(&turned, &turned_rows)
            .unwrap()
            .map(|pair| Pair {
                target: pair.query,
                query: pair.target,
            })
            .collect();
        exchanged.sort();
        let pairs: Vec<Pair> = lift::pairs(&chain, &rows).unwrap().collect();
        assert_eq!(exchanged, pairs);
        let back = lift::turn(&turned, &turned_rows, rows.len());
        assert_eq!(back, Ok((chain, rows)));
    }
}

#[test]
fn a_lift_through_the_turned_chain_restores_the_position() {
    let mut dice = Dice::new(9);
    for _ in 0..ROUNDS {
        let (chain, _, _, rows) = any_chain(&mut dice);
        let (turned, turned_rows) = lift::turn(&chain, &rows, rows.len()).unwrap();
        let position = dice.between(0, chain.t_size - 1);
        if let Ok(there) = lift::lift_position(&chain, &rows, position) {
            let back = lift::lift_position(&turned, &turned_rows, there.partner).unwrap();
            assert_eq!((back.partner, back.drift), (position, -there.drift));
        }
    }
}

/// A chain that is damaged now and then, and any region, also one not inside.
fn any_sent(dice: &mut Dice) -> (Chain, Vec<Row>, u64, u64) {
    let (mut chain, _, _, rows) = any_chain(dice);
    if dice.chance(6) {
        chain.t_end += 1;
    }
    let start = dice.between(0, chain.t_size);
    let end = dice.between(start.saturating_sub(1), chain.t_size + 1);
    (chain, rows, start, end)
}

#[test]
fn the_tally_after_each_region_is_the_sum_so_far() {
    let mut dice = Dice::new(10);
    for _ in 0..30 {
        let batch: Vec<_> = (0..12).map(|_| any_sent(&mut dice)).collect();
        let sent: Vec<Sent> = batch
            .iter()
            .map(|(chain, rows, start, end)| Sent {
                chain,
                table: rows,
                start: *start,
                end: *end,
            })
            .collect();
        let mut tally = Tally::default();
        for (at, region) in sent.iter().enumerate() {
            tally = lift::step(region.chain, region.table, region.start, region.end, tally).0;
            assert_eq!(tally, lift::sums(&sent[..=at]));
        }
    }
}

#[test]
fn the_tally_after_each_batch_is_the_sum_so_far() {
    let mut dice = Dice::new(11);
    for _ in 0..30 {
        let batches: Vec<_> = (0..4).map(|_| any_batch(&mut dice)).collect();
        let mut tally = Tally::default();
        let mut sent: Vec<Sent> = Vec::new();
        for (chain, table, regions) in &batches {
            let room = regions.len();
            tally = lift::batch(chain, table, regions, room, tally).unwrap().0;
            sent.extend(regions.iter().map(|&(start, end)| Sent {
                chain,
                table,
                start,
                end,
            }));
            assert_eq!(tally, lift::sums(&sent));
        }
    }
}

/// A chain that is damaged now and then, and up to 8 regions, also some not inside.
fn any_batch(dice: &mut Dice) -> (Chain, Vec<Row>, Vec<(u64, u64)>) {
    let (chain, rows, ..) = any_sent(dice);
    let count = dice.between(0, 8);
    let region = |_| {
        let start = dice.between(0, chain.t_size);
        (
            start,
            dice.between(start.saturating_sub(1), chain.t_size + 1),
        )
    };
    let regions = (0..count).map(region).collect();
    (chain, rows, regions)
}
