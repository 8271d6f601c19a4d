//! The bench samples through the library's functions, field by field, batches of regions,
//! and texts of numbers.

use tenderchock::{check, convert, format, lift_batch, lift_position, lift_region, numbers};
use tenderchock::{sys, turn, Batch, Bed, Chain, Kind, LiftedPosition, LiftedRegion, Psl};
use tenderchock::{Refusal, Room, Row, Strand, Tally};

const CHAIN_A: &[u8] = b"chain 100 tA 100 + 10 40 qB 80 - 5 33 7\n10 3 0\n8 0 1\n9\n";
const CHAIN_A_TURNED: &[u8] = b"chain 100 qB 80 + 47 75 tA 100 - 60 90 7\n9 1 0\n8 0 3\n10\n";
const PSL_A: &[u8] = b"27 0 0 0 1 1 1 3 - qB 80 47 75 tA 100 10 40 3 10,8,9, 5,15,24, 10,23,31,";
const BED_000: &[u8] = b"chr22 1000 5000 cloneA 960 + 1000 5000 0 2 567,488, 0,3512";

fn row(target_start: u64, query_start: u64, size: u64) -> Row {
    Row {
        target_start,
        query_start,
        size,
    }
}

fn refused<T: std::fmt::Debug>(answer: Result<T, Refusal>) -> (u8, usize) {
    let refusal = answer.expect_err("a refusal");
    (refusal.number, refusal.place)
}

#[test]
fn a_bed_line_is_read() {
    let bed = Bed {
        word_count: 12,
        chrom: b"chr22",
        chrom_start: 1000,
        chrom_end: 5000,
        name: b"cloneA",
        score: 960,
        strand: Strand::Plus,
        thick_start: 1000,
        thick_end: 5000,
        item_rgb: [0, 0, 0],
        rows: vec![row(1000, 0, 567), row(4512, 567, 488)],
    };
    assert_eq!(Bed::parse(BED_000), Ok(bed));
    assert_eq!(check(Kind::Bed, BED_000), Ok(2));
}

#[test]
fn columns_left_out_hold_their_defaults() {
    let bed = Bed {
        word_count: 3,
        chrom: b"c",
        chrom_start: 7,
        chrom_end: 9,
        name: b"",
        score: 0,
        strand: Strand::Dot,
        thick_start: 7,
        thick_end: 9,
        item_rgb: [0, 0, 0],
        rows: vec![row(7, 0, 2)],
    };
    assert_eq!(Bed::parse(b"c 7 9"), Ok(bed));
    let coloured = Bed::parse(b"c 7 9 n 5 - 8 9 1,2,255").expect("nine words");
    assert_eq!(coloured.item_rgb, [1, 2, 255]);
    assert_eq!((coloured.thick_start, coloured.score), (8, 5));
}

#[test]
fn a_psl_line_is_read() {
    let psl = Psl {
        matches: 27,
        mis_matches: 0,
        rep_matches: 0,
        n_count: 0,
        q_num_insert: 1,
        q_base_insert: 1,
        t_num_insert: 1,
        t_base_insert: 3,
        strand: Strand::Minus,
        q_name: b"qB",
        q_size: 80,
        q_start: 47,
        q_end: 75,
        t_name: b"tA",
        t_size: 100,
        t_start: 10,
        t_end: 40,
        rows: vec![row(10, 5, 10), row(23, 15, 8), row(31, 24, 9)],
    };
    assert_eq!(Psl::parse(PSL_A), Ok(psl));
}

#[test]
fn a_chain_is_read() {
    let chain = Chain {
        score: 100,
        t_name: b"tA",
        t_size: 100,
        t_start: 10,
        t_end: 40,
        q_name: b"qB",
        q_size: 80,
        q_strand: Strand::Minus,
        q_start: 5,
        q_end: 33,
        id: 7,
        rows: vec![row(10, 5, 10), row(23, 15, 8), row(31, 24, 9)],
    };
    assert_eq!(Chain::parse(CHAIN_A), Ok(chain));
}

#[test]
fn refusals_have_a_number_and_a_place() {
    assert_eq!(refused(check(Kind::Bed, b"c 1001 007")), (4, 7));
    assert_eq!(refused(Bed::parse(b"c 5 5")), (7, 4));
    assert_eq!(refused(check(Kind::Psl, b"")), (2, 0));
    assert_eq!(refused(check(Kind::Bed, &[b'1'; 65_537])), (1, 0));
    let refusal = Bed::parse(b"c 5 \xFF").expect_err("a refusal");
    assert_eq!(
        refusal.to_string(),
        "refused by 3 at byte 4: a byte that is not allowed"
    );
}

#[test]
fn texts_are_formatted_and_turned() {
    let standard = format(Kind::Bed, b" c  1 2 n 0 . 1 2 0,0,0 1 1 0").expect("a BED line");
    assert_eq!(standard, b"c\t1\t2\tn\t0\t.\t1\t2\t0\t1\t1,\t0,\n");
    assert_eq!(format(Kind::Chain, CHAIN_A).as_deref(), Ok(CHAIN_A));
    assert_eq!(turn(CHAIN_A).as_deref(), Ok(CHAIN_A_TURNED));
    assert_eq!(turn(CHAIN_A_TURNED).as_deref(), Ok(CHAIN_A));
}

#[test]
fn positions_lift() {
    for (position, partner) in [(10, 74), (19, 65), (23, 64), (31, 55)] {
        let drift = partner as i64 - position as i64;
        assert_eq!(
            lift_position(CHAIN_A, position),
            Ok(LiftedPosition { partner, drift })
        );
    }
    let back = LiftedPosition {
        partner: 10,
        drift: -64,
    };
    assert_eq!(lift_position(CHAIN_A_TURNED, 74), Ok(back));
    for (position, number) in [
        (20, 12),
        (22, 12),
        (40, 12),
        (99, 12),
        (100, 13),
        (u64::MAX, 13),
    ] {
        assert_eq!(refused(lift_position(CHAIN_A, position)), (number, 0));
    }
}

#[test]
fn regions_lift_and_are_tallied() {
    let lifted = LiftedRegion {
        kept: 4,
        dropped: 3,
        start: 63,
        end: 67,
    };
    assert_eq!(lift_region(CHAIN_A, 18, 25), Ok(lifted));
    assert_eq!(refused(lift_region(CHAIN_A, 20, 23)), (12, 0));
    assert_eq!(refused(lift_region(CHAIN_A, 20, 20)), (13, 0));
    let mut tally = Tally::default();
    assert_eq!(tally.add(CHAIN_A, 18, 25), Ok(4));
    assert_eq!(refused(tally.add(CHAIN_A, 20, 23)), (12, 0));
    assert_eq!(refused(tally.add(CHAIN_A, 20, 20)), (13, 0));
    assert_eq!(refused(tally.add(b"chain", 20, 21)), (2, 5));
    assert_eq!(
        tally,
        Tally {
            asked: 10,
            kept: 4,
            dropped: 6
        }
    );
}

/// What a batch answers for each region: bases kept, or the refusal's number.
fn in_a_batch(regions: &[(u64, u64)], tally: &mut Tally) -> Vec<Result<u64, u8>> {
    let lifted = lift_batch(CHAIN_A, regions, tally).expect("a chain");
    let each = |region: Result<LiftedRegion, Refusal>| match region {
        Ok(region) => Ok(region.kept),
        Err(refusal) => Err(refusal.number),
    };
    lifted.into_iter().map(each).collect()
}

#[test]
fn a_batch_is_lifted_and_tallied() {
    let across = LiftedRegion {
        kept: 4,
        dropped: 3,
        start: 63,
        end: 67,
    };
    let refused = |number| Err(Refusal { number, place: 0 });
    let mut tally = Tally::default();
    assert_eq!(
        lift_batch(
            CHAIN_A,
            &[(18, 25), (20, 23), (20, 20), (0, 101)],
            &mut tally
        ),
        Ok(vec![Ok(across), refused(12), refused(13), refused(13)])
    );
    let grown = Tally {
        asked: 10,
        kept: 4,
        dropped: 6,
    };
    assert_eq!(tally, grown);
    // No regions, and a chain that is refused.
    assert_eq!(lift_batch(CHAIN_A, &[], &mut tally), Ok(vec![]));
    let bad = b"chain 100 tA 100 + 10 40 qB 80 - 5 33 7\n10 3 0\n8 0 1\n8\n";
    for (chain, place) in [(&bad[..], None), (b"chain", Some((2, 5)))] {
        let refusal = check(Kind::Chain, chain).expect_err("a refusal");
        let found = (refusal.number, refusal.place);
        assert_eq!(place.unwrap_or(found), found);
        assert_eq!(lift_batch(chain, &[(18, 25)], &mut tally), Err(refusal));
    }
    assert_eq!(tally, grown);
}

/// A region that takes the tally over its limit is passed over alone.
#[test]
fn a_batch_keeps_to_the_limit_of_its_tally() {
    let near = 9_223_372_036_854_775_807 - 5;
    let mut tally = Tally {
        asked: near,
        kept: near,
        dropped: 0,
    };
    let answers = in_a_batch(&[(10, 16), (10, 15), (10, 11)], &mut tally);
    assert_eq!(answers, [Err(5), Ok(5), Err(5)]);
    let full = Tally {
        asked: near + 5,
        kept: near + 5,
        dropped: 0,
    };
    assert_eq!(tally, full);
}

#[test]
fn a_batch_is_refused_region_by_region_for_a_tally_that_disagrees() {
    let bad = Tally {
        asked: 1,
        kept: 1,
        dropped: 1,
    };
    let mut tally = bad;
    let answers = in_a_batch(&[(10, 20), (20, 23), (30, 30), (99, 101)], &mut tally);
    assert_eq!(answers, [Err(10), Err(10), Err(13), Err(13)]);
    assert_eq!(tally, bad);
}

/// Every region with an end up to 102, in one batch and one by one; a batch that is used
/// again has nothing left from before.
#[test]
fn a_batch_answers_as_single_calls_do() {
    let regions: Vec<(u64, u64)> = (0..103)
        .flat_map(|end| (0..=end + 1).map(move |start| (start, end)))
        .collect();
    for chain in [CHAIN_A, CHAIN_A_TURNED] {
        let (mut single, mut tally, mut again) = Default::default();
        let lifted = lift_batch(chain, &regions, &mut tally).expect("a chain");
        for ((start, end), lifted) in regions.iter().zip(&lifted) {
            assert_eq!(lift_region(chain, *start, *end), *lifted, "{start} {end}");
            let kept = Tally::add(&mut single, chain, *start, *end);
            assert_eq!(kept, lifted.map(|region| region.kept), "{start} {end}");
        }
        assert_eq!(tally, single);
        let mut batch = Batch::new();
        assert!(batch.is_empty());
        for (start, end) in regions.iter().rev() {
            batch.push(*start, *end);
        }
        let answers = batch.lift(chain, &mut again).expect("a chain");
        assert!(answers.eq(lifted.iter().rev().copied()));
        assert_eq!(again, tally);
        batch.clear();
        batch.push(18, 25);
        assert_eq!(batch.len(), 1);
        for _ in 0..2 {
            let answers = batch.lift(chain, &mut again).expect("a chain");
            assert!(answers.eq([lift_region(chain, 18, 25)]));
        }
    }
}

/// Lifts that the second program would take long to list base by base.
#[test]
fn the_largest_block_lifts() {
    let limit = 2_147_483_647u64;
    let text = format!("chain 0 t {limit} + 0 {limit} q {limit} - 0 {limit} 1\n{limit}");
    let last = limit - 1;
    let lifted = LiftedPosition {
        partner: 0,
        drift: -(last as i64),
    };
    assert_eq!(lift_position(text.as_bytes(), last), Ok(lifted));
    let region = LiftedRegion {
        kept: limit,
        dropped: 0,
        start: 0,
        end: limit,
    };
    assert_eq!(lift_region(text.as_bytes(), 0, limit), Ok(region));
    let end = LiftedRegion {
        kept: 2,
        dropped: 0,
        start: 0,
        end: 2,
    };
    assert_eq!(lift_region(text.as_bytes(), limit - 2, limit), Ok(end));
    assert_eq!(refused(lift_position(text.as_bytes(), limit)), (13, 0));
}

#[test]
fn spans_convert() {
    assert_eq!(convert(5, 33, 80), Ok((47, 75)));
    assert_eq!(refused(convert(33, 5, 80)), (7, 0));
    assert_eq!(refused(convert(0, 1, 2_147_483_648)), (5, 0));
}

#[test]
fn a_room_is_used_again() {
    let mut room = Room::new();
    for _ in 0..2 {
        let bed = format(Kind::Bed, BED_000).expect("a BED line");
        assert_eq!(room.format(Kind::Bed, BED_000), Ok(&bed[..]));
        assert_eq!(room.format(Kind::Bed, b"c 7 9"), Ok(&b"c\t7\t9\n"[..]));
        assert_eq!(refused(room.format(Kind::Bed, b"c 7")), (2, 3));
        assert_eq!(room.turn(CHAIN_A), Ok(CHAIN_A_TURNED));
        assert_eq!(Bed::parse_in(&mut room, BED_000), Bed::parse(BED_000));
        assert_eq!(Psl::parse_in(&mut room, PSL_A), Psl::parse(PSL_A));
        assert_eq!(Chain::parse_in(&mut room, CHAIN_A), Chain::parse(CHAIN_A));
    }
}

#[test]
fn the_numbers_of_a_text_are_read() {
    let texts: [(&[u8], &[u64]); 12] = [
        (b"", &[]),
        (b"\n", &[]),
        (b" \t", &[]),
        (b" \t\n", &[]),
        (b"0", &[0]),
        (b"7\n", &[7]),
        (b"567 488", &[567, 488]),
        (b"567\t488\n", &[567, 488]),
        (b" \t567 \t\t 488\t \n", &[567, 488]),
        (b"1  2   3 ", &[1, 2, 3]),
        (b"0 0 0", &[0, 0, 0]),
        (
            b"100000000000000000 999999999999999999 0",
            &[100_000_000_000_000_000, 999_999_999_999_999_999, 0],
        ),
    ];
    for (text, read) in texts {
        let shown = text.escape_ascii();
        assert_eq!(numbers(text).as_deref(), Ok(read), "\"{shown}\"");
    }
}

/// Each word alone, and between two others.
#[test]
fn a_number_is_misspelt_or_out_of_range() {
    let misspelt = "00 007 0999999999999999999 , 567,488 5, 1e3 +1 -1 1: :1 /1 1/ x 0x10 1.5 \
        9999999999999999999x 99999999999999999999999999x";
    let too_large = "1000000000000000000 9999999999999999999 10000000000000000000 \
        18446744073709551615 18446744073709551616 18446744073709551620 99999999999999999999 \
        100000000000000000000 340282366920938463463374607431768211456";
    for (number, words) in [(4, misspelt), (5, too_large)] {
        for word in words.split(' ') {
            assert_eq!(refused(numbers(word.as_bytes())), (number, 0), "{word}");
            let text = format!("12 {word} 7\n");
            assert_eq!(refused(numbers(text.as_bytes())), (number, 3), "{word}");
        }
    }
}

#[test]
fn a_number_of_many_digits_is_spelt_before_its_range() {
    for (digit, last, number) in [(b'9', b'9', 5), (b'9', b'x', 4), (b'0', b'0', 4)] {
        let word = [vec![digit; 60_000], vec![last]].concat();
        assert_eq!(refused(numbers(&word)), (number, 0));
        let text = [b"1 2 ", &word[..], b" 3"].concat();
        assert_eq!(refused(numbers(&text)), (number, 4));
    }
}

#[test]
fn the_first_fault_of_a_text_of_numbers_decides() {
    let texts: [(&[u8], (u8, usize)); 15] = [
        (b"1\n2", (2, 2)),
        (b"1\n \t2", (2, 4)),
        (b"1\n\n", (2, 2)),
        (b"1\n \t\n", (2, 4)),
        (b"1\n \t", (2, 4)),
        (b"\n\n", (2, 1)),
        (b"\n1", (2, 1)),
        (b"1\nx", (2, 2)),
        (b"1\n2\n3", (2, 2)),
        // Words come before a surplus line, and bytes before words.
        (b"x\n2", (4, 0)),
        (b"1 1000000000000000000\n2", (5, 2)),
        (b"1 x 1000000000000000000", (4, 2)),
        (b"1 1000000000000000000 x", (5, 2)),
        (b"x 1 2 3 4 5 6 7 8 9\n\n \x7F", (3, 22)),
        (b"1 2\r\n", (3, 3)),
    ];
    for (text, refusal) in texts {
        let shown = text.escape_ascii();
        assert_eq!(refused(numbers(text)), refusal, "\"{shown}\"");
    }
    let far = [b"x", &[b' '; 60_000][..], b"\x80"].concat();
    assert_eq!(refused(numbers(&far)), (3, 60_001));
}

#[test]
fn a_text_of_numbers_has_at_most_65536_bytes() {
    let mut text = b"1 ".repeat(32_768);
    assert_eq!(numbers(&text), Ok(vec![1; 32_768]));
    text[65_535] = b'\n';
    assert_eq!(numbers(&text), Ok(vec![1; 32_768]));
    assert_eq!(numbers(&text[..65_535]), Ok(vec![1; 32_768]));
    text[65_535] = b'x';
    assert_eq!(refused(numbers(&text)), (4, 65_534));
    text.push(b'\xFF');
    assert_eq!(refused(numbers(&text)), (1, 0));
    assert_eq!(numbers(&[b' '; 65_536]), Ok(vec![]));
    assert_eq!(refused(numbers(&[b' '; 65_537])), (1, 0));
}

/// What an entry is lent, all bytes alike.
const MARK: u8 = 0xA5;

#[test]
fn numbers_go_to_the_front_of_what_is_lent() {
    let text = b" 258 0\t999999999999999999\n";
    let wanted = [258, 0, 999_999_999_999_999_999].map(u64::to_le_bytes);
    for more in [0, 1, 7, 8, 100] {
        let mut out = vec![MARK; 24 + more];
        assert_eq!(sys::numbers(text, &mut out), 16 * 3);
        assert_eq!(out[..24], *wanted.as_flattened());
        assert_eq!(out[24..], vec![MARK; more]);
    }
    let mut none = [MARK; 3];
    assert_eq!(sys::numbers(b" \n", &mut none), 0);
    assert_eq!(sys::numbers(b"", &mut []), 0);
    assert_eq!(none, [MARK; 3]);
}

#[test]
fn too_little_room_for_numbers_is_told_last_and_leaves_what_is_lent() {
    let text = b"1 2 3\n";
    for room in [0, 1, 8, 16, 23] {
        let mut out = vec![MARK; room];
        assert_eq!(sys::numbers(text, &mut out), 16 * 6 + 11, "{room} bytes");
        assert_eq!(out, vec![MARK; room]);
    }
    let faulty: [(&[u8], u64); 5] = [
        (b"1 2 x", 16 * 4 + 4),
        (b"1 2 1000000000000000000", 16 * 4 + 5),
        (b"1 2 3\n4", 16 * 6 + 2),
        (b"1 2 3\n\n", 16 * 6 + 2),
        (b"1 2 3 \x00", 16 * 6 + 3),
    ];
    for (text, answer) in faulty {
        for room in [0, 8, 16, 100] {
            let mut out = vec![MARK; room];
            assert_eq!(sys::numbers(text, &mut out), answer);
            assert_eq!(out, vec![MARK; room]);
        }
    }
    let long = b"1 ".repeat(32_768);
    let mut out = vec![MARK; 8 * 32_768 - 1];
    assert_eq!(sys::numbers(&long, &mut out), 16 * 65_536 + 11);
    assert!(out.iter().all(|byte| *byte == MARK));
}
