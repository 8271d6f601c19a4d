//! The library against the second program: texts drawn from a seed, valid and
//! damaged, go through every entry of the library, and each number, place, field,
//! row and byte left behind must be what the second program says.
//!
//! TENDERCHOCK_CASES sets the number of cases (20,000; a quarter as many texts of numbers,
//! and a fiftieth as many lists of calls with one tally), TENDERCHOCK_SEED the seed (1).

mod batches;
mod compare;
mod damage;
mod dice;
mod drafts;
mod expected;

use std::env;

use compare::{bytes_of, Case, Compare, Seen};
use dice::Dice;
use drafts::Draft;
use expected::Sent;
use tenderchock::{Kind, Tally};

const CASES: u64 = 20_000;

fn option(name: &str, default: u64) -> u64 {
    match env::var(name) {
        Ok(word) => word
            .parse()
            .unwrap_or_else(|_| panic!("{name} is {word}, not a number")),
        Err(_) => default,
    }
}

/// A case: a text and the kind that it is sent as, most often its own.
fn drawn(dice: &mut Dice) -> Case {
    let kind = dice.of(&[Kind::Bed, Kind::Psl, Kind::Chain, Kind::Chain]);
    let draft = drafts::any(dice, kind);
    let text = sent_text(dice, draft);
    let number = match dice.once_in(50) {
        true => dice.of(&[0, 1, 2, 3, 4, 16, u64::MAX]),
        false => kind.number(),
    };
    Case { kind: number, text }
}

/// A draft's text as it is, damaged, or noise in its place.
fn sent_text(dice: &mut Dice, mut draft: Draft) -> Vec<u8> {
    let way = dice.between(0, 9);
    if (3..=8).contains(&way) {
        (0..dice.of(&[1, 1, 2])).for_each(|_| damage::to_draft(dice, &mut draft));
    }
    let mut text = damage::written(dice, &draft);
    if way >= 8 {
        (0..dice.between(1, 3)).for_each(|_| damage::to_bytes(dice, &mut text));
    }
    if dice.once_in(200) {
        let length = dice.index(80);
        text = dice.bytes(length);
    }
    text
}

/// Draws so many cases and compares each; all answers must be among those seen.
fn run(
    cases: u64,
    answers: &[Answers],
    draw: fn(&mut Dice) -> Case,
    compare: fn(&mut Compare, &Case),
) {
    let seed = option("TENDERCHOCK_SEED", 1);
    let mut seen = Seen::new();
    for number in 0..cases {
        let mut dice = Dice::of_case(seed, number);
        let case = draw(&mut dice);
        let (kind, text) = (case.kind, case.text.escape_ascii());
        let label = format!("seed {seed}, case {number}, kind {kind}, text \"{text}\"");
        let mut one = Compare {
            dice: &mut dice,
            seen: &mut seen,
            label: &label,
        };
        compare(&mut one, &case);
    }
    told(&seen);
    if option("TENDERCHOCK_CASES", CASES) >= CASES {
        every_answer_was_seen(&seen, answers);
    }
}

#[test]
fn the_library_answers_as_the_second_program() {
    let cases = option("TENDERCHOCK_CASES", CASES);
    run(cases, &ANSWERS, drawn, |one, case| one.case(case));
}

/// A text of numbers, which has no kind.
fn drawn_numbers(dice: &mut Dice) -> Case {
    let draft = drafts::numbers(dice);
    let text = sent_text(dice, draft);
    Case { kind: 0, text }
}

#[test]
fn texts_of_numbers_are_read_as_by_the_second_program() {
    let cases = option("TENDERCHOCK_CASES", CASES) / 4;
    let answers: Answers = ("numbers", &[0, 1, 2, 3, 4, 5, 11]);
    run(cases, &[answers], drawn_numbers, |one, case| {
        one.numbers(&case.text)
    });
}

fn told(seen: &Seen) {
    for ((entry, number), times) in seen {
        println!("{entry}: {number} {times} times");
    }
}

/// A region sent through a chain of few bases, good or damaged; it may lie outside.
fn sent(dice: &mut Dice) -> Sent {
    loop {
        let mut draft = drafts::any(dice, Kind::Chain);
        if dice.once_in(4) {
            damage::to_draft(dice, &mut draft);
        }
        let text = damage::written(dice, &draft);
        let Ok((chain, rows)) = expected::read_chain(&text) else {
            let (start, end) = (0, dice.between(0, 9));
            return Sent { text, start, end };
        };
        if expected::bases(&rows) <= 5_000 {
            let start = dice.between(0, chain.t_size);
            let end = dice.between(start.saturating_sub(1), chain.t_size + 1);
            return Sent { text, start, end };
        }
    }
}

#[test]
fn a_batch_is_tallied_as_the_sums_over_its_regions() {
    let seed = option("TENDERCHOCK_SEED", 1);
    for batch in 0..200 {
        let mut dice = Dice::of_case(seed, batch);
        let regions: Vec<Sent> = (0..12).map(|_| sent(&mut dice)).collect();
        let mut tally = Tally::default();
        for (at, region) in regions.iter().enumerate() {
            let _ = tally.add(&region.text, region.start, region.end);
            let sums = expected::sums(&regions[..=at]);
            let left = (tally.asked, tally.kept, tally.dropped);
            assert_eq!(
                left,
                (sums.asked, sums.kept, sums.dropped),
                "seed {seed}, batch {batch}"
            );
        }
        assert!(
            tally.asked > 0,
            "seed {seed}, batch {batch}: no region was asked"
        );
    }
}

/// One call of a list: a region, or a batch of regions, through a chain of few bases. The
/// regions that count as sent.
fn mixed_call(one: &mut Compare, tally: &mut [u8]) -> Vec<Sent> {
    let Sent { text, start, end } = sent(one.dice);
    let of_text = |(start, end)| Sent {
        text: text.clone(),
        start,
        end,
    };
    if one.dice.once_in(2) {
        one.tally_call(&text, start, end, tally);
        return vec![of_text((start, end))];
    }
    let regions = one.any_regions(&expected::read_chain(&text));
    match one.batch_call(&text, &regions, tally) {
        true => regions.into_iter().map(of_text).collect(),
        false => Vec::new(),
    }
}

/// Calls one after the other with one tally, which is compared after each; from a zero one
/// it is the sums over all regions sent so far.
fn mixed_list(one: &mut Compare, from_zero: bool) {
    let mut tally = match from_zero {
        true => vec![0; 24],
        false => one.any_lent_tally(200),
    };
    let mut regions = Vec::new();
    for _ in 0..8 {
        regions.extend(mixed_call(one, &mut tally));
        if from_zero {
            let sums = expected::sums(&regions);
            let fields = vec![sums.asked, sums.kept, sums.dropped];
            assert!(tally == bytes_of(fields), "{}: the sums", one.label);
        }
    }
}

#[test]
fn single_calls_and_batches_grow_one_tally() {
    let seed = option("TENDERCHOCK_SEED", 1);
    let mut seen = Seen::new();
    for list in 0..option("TENDERCHOCK_CASES", CASES) / 50 {
        let mut one = Compare {
            dice: &mut Dice::of_case(seed, list),
            seen: &mut seen,
            label: &format!("seed {seed}, list {list}"),
        };
        mixed_list(&mut one, list.is_multiple_of(2));
    }
    told(&seen);
}

/// An entry and the numbers that it can give.
type Answers = (&'static str, &'static [u8]);

/// The entries that every text goes through.
const ANSWERS: [Answers; 17] = [
    ("bed check", &[0, 1, 2, 3, 4, 5, 6, 7, 8, 9]),
    ("bed parse", &[0, 1, 2, 3, 4, 5, 6, 7, 8, 9, 11]),
    ("bed format", &[0, 1, 2, 3, 4, 5, 6, 7, 8, 9, 11]),
    ("psl check", &[0, 1, 2, 3, 4, 5, 6, 7, 8, 9, 10]),
    ("psl parse", &[0, 1, 2, 3, 4, 5, 6, 7, 8, 9, 10, 11]),
    ("psl format", &[0, 1, 2, 3, 4, 5, 6, 7, 8, 9, 10, 11]),
    ("chain check", &[0, 1, 2, 3, 4, 5, 6, 7, 9, 11]),
    ("chain parse", &[0, 1, 2, 3, 4, 5, 6, 7, 9, 11]),
    ("chain format", &[0, 1, 2, 3, 4, 5, 6, 7, 9, 11]),
    ("other check", &[6]),
    ("turn", &[0, 1, 2, 3, 4, 5, 6, 7, 9, 11]),
    ("lift position", &[0, 1, 2, 3, 4, 5, 6, 7, 9, 11, 12, 13]),
    ("lift region", &[0, 1, 2, 3, 4, 5, 6, 7, 9, 11, 12, 13]),
    ("tally", &[0, 1, 2, 3, 4, 5, 6, 7, 9, 10, 11, 12, 13]),
    ("lift batch", &[0, 1, 2, 3, 4, 5, 6, 7, 9, 11]),
    ("batch row", &[0, 5, 10, 12, 13]),
    ("convert", &[0, 5, 7, 11]),
];

/// A run that misses one of these tests too little.
fn every_answer_was_seen(seen: &Seen, wanted: &[Answers]) {
    for (entry, numbers) in wanted {
        for number in *numbers {
            assert!(
                seen.contains_key(&(entry, *number)),
                "no {entry} gave {number}"
            );
        }
    }
}
