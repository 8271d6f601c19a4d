//! Strand conversion, lifts, turns, the tally and batches: bench samples and open points.

mod common;

use common::{chain_a, number, CHAIN_A, CHAIN_A_TURNED, ROOM};
use reference::chain::{self, Chain, Names};
use reference::ledger::{Strand, TALLY_LIMIT};
use reference::lift::{self, BatchRow, LiftedRegion, Sent, Tally};
use reference::rows::Row;

const LIMIT: u64 = 2_147_483_647;

/// A chain of one block over its whole target and query.
fn whole(size: u64) -> (Chain, Vec<Row>) {
    let text = format!("chain 0 t {size} + 0 {size} q {size} + 0 {size} 0\n{size}\n");
    chain::read(text.as_bytes(), ROOM).unwrap()
}

#[test]
fn conversion() {
    assert_eq!(lift::convert(80, 5, 33), Ok((47, 75)));
    assert_eq!(lift::convert(61, 4, 56), Ok((5, 57)));
    assert_eq!(lift::convert(LIMIT, 0, LIMIT), Ok((0, LIMIT)));
    assert_eq!(number(lift::convert(LIMIT + 1, 0, 1)), 5);
    assert_eq!(number(lift::convert(0, u64::MAX, 1)), 5);
    assert_eq!(number(lift::convert(0, 0, LIMIT + 1)), 5);
    assert_eq!(number(lift::convert(0, 0, 0)), 7);
    assert_eq!(number(lift::convert(9, 4, 4)), 7);
    assert_eq!(number(lift::convert(9, 4, 10)), 7);
}

#[test]
fn positions_of_chain_a() {
    let (chain, rows) = chain_a();
    let lifted = |position| lift::lift_position(&chain, &rows, position);
    for (position, partner, drift) in [(10, 74, 64), (19, 65, 46), (23, 64, 41), (31, 55, 24)] {
        let answer = lifted(position).unwrap();
        assert_eq!((answer.partner, answer.drift), (partner, drift));
    }
    for position in [0, 9, 20, 22, 40, 99] {
        assert_eq!(number(lifted(position)), 12);
    }
    for position in [100, LIMIT, LIMIT + 1, u64::MAX] {
        assert_eq!(number(lifted(position)), 13);
    }
}

#[test]
fn a_drift_may_be_negative() {
    let (chain, rows) = chain_a();
    let (turned, turned_rows) = lift::turn(&chain, &rows, ROOM).unwrap();
    let answer = lift::lift_position(&turned, &turned_rows, 74).unwrap();
    assert_eq!((answer.partner, answer.drift), (10, -64));
}

#[test]
fn regions_of_chain_a() {
    let (chain, rows) = chain_a();
    let lifted = |start, end| lift::lift_region(&chain, &rows, start, end);
    let expected = LiftedRegion {
        kept: 4,
        dropped: 3,
        start: 63,
        end: 67,
    };
    assert_eq!(lifted(18, 25), Ok(expected));
    assert_eq!(number(lifted(20, 23)), 12);
    assert_eq!(number(lifted(20, 20)), 13);
    assert_eq!(number(lifted(25, 18)), 13);
    assert_eq!(number(lifted(90, 101)), 13);
    assert_eq!(number(lifted(0, u64::MAX)), 13);
    assert_eq!(number(lifted(40, 100)), 12);
    let all = lifted(0, 100).unwrap();
    assert_eq!((all.kept, all.dropped), (27, 73));
    assert_eq!((all.start, all.end), (47, 75));
}

#[test]
fn chain_a_turned() {
    let (chain, rows) = chain_a();
    let (turned, turned_rows) = lift::turn(&chain, &rows, 3).unwrap();
    let names = turned.names(CHAIN_A);
    let text = chain::write(&turned, names, &turned_rows, ROOM).unwrap();
    assert_eq!(text, CHAIN_A_TURNED);
    assert_eq!(
        lift::turn(&turned, &turned_rows, 3),
        Ok((chain, rows.clone()))
    );
}

#[test]
fn a_plus_chain_turns_by_exchange() {
    let text = b"chain 5 t 9 + 1 6 q 20 + 10 14 3\n2 1 0\n2\n";
    let (chain, rows) = chain::read(text, ROOM).unwrap();
    let (turned, turned_rows) = lift::turn(&chain, &rows, ROOM).unwrap();
    let names = Names {
        target: b"q",
        query: b"t",
    };
    let text = chain::write(&turned, names, &turned_rows, ROOM).unwrap();
    assert_eq!(text, b"chain 5 q 20 + 10 14 t 9 + 1 6 3\n2 0 1\n2\n");
}

#[test]
fn room_for_a_turn_is_tested_last() {
    let (mut chain, rows) = chain_a();
    assert_eq!(number(lift::turn(&chain, &rows, 2)), 11);
    chain.t_end = 41;
    assert_eq!(number(lift::turn(&chain, &rows, 2)), 9);
}

#[test]
fn records_are_tested_again() {
    let (chain, rows) = chain_a();
    let dotted = Chain {
        q_strand: Strand::Dot,
        ..chain
    };
    assert_eq!(number(lift::lift_position(&dotted, &rows, 1000)), 9);
    assert_eq!(number(lift::lift_region(&dotted, &rows, 5, 5)), 9);
    assert_eq!(number(lift::lift_position(&chain, &rows[..2], 10)), 9);
}

fn tally(asked: u64, kept: u64, dropped: u64) -> Tally {
    Tally {
        asked,
        kept,
        dropped,
    }
}

#[test]
fn a_region_grows_the_tally() {
    let (chain, rows) = chain_a();
    let (after, answer) = lift::step(&chain, &rows, 18, 25, tally(10, 4, 6));
    assert!(answer.is_ok());
    assert_eq!(after, tally(17, 8, 9));
    let (after, answer) = lift::step(&chain, &rows, 20, 23, after);
    assert_eq!(number(answer), 12);
    assert_eq!(after, tally(20, 8, 12));
}

#[test]
fn refusals_that_leave_the_tally() {
    let (chain, rows) = chain_a();
    let bad = Chain { t_end: 41, ..chain };
    let disagreeing = tally(1, 1, 1);
    for (chain, start, end, before, by) in [
        (&bad, 20, 20, disagreeing, 9),
        (&chain, 20, 20, disagreeing, 13),
        (&chain, 20, 23, disagreeing, 10),
        (&chain, 18, 25, disagreeing, 10),
        (&chain, 20, 23, tally(TALLY_LIMIT, TALLY_LIMIT, 0), 5),
        (
            &chain,
            18,
            25,
            tally(TALLY_LIMIT - 6, 0, TALLY_LIMIT - 6),
            5,
        ),
        (&chain, 18, 25, tally(u64::MAX, u64::MAX, 0), 10),
        (&chain, 18, 25, tally(TALLY_LIMIT + 1, TALLY_LIMIT, 1), 10),
        (&chain, 18, 25, tally(0, u64::MAX, 1), 10),
    ] {
        let (after, answer) = lift::step(chain, &rows, start, end, before);
        assert_eq!(number(answer), by);
        assert_eq!(after, before);
    }
}

#[test]
fn asked_may_reach_its_limit() {
    let (chain, rows) = chain_a();
    let before = tally(TALLY_LIMIT - 7, TALLY_LIMIT - 7, 0);
    let (after, answer) = lift::step(&chain, &rows, 18, 25, before);
    assert!(answer.is_ok());
    assert_eq!(after, tally(TALLY_LIMIT, TALLY_LIMIT - 3, 3));
}

/// Refused by this number: four zeros follow it.
fn refused(number: u64) -> BatchRow {
    [number, 0, 0, 0, 0]
}

#[test]
fn a_batch_through_chain_a() {
    let (chain, rows) = chain_a();
    let regions = [(18, 25), (20, 23), (20, 20), (0, 101)];
    let answers = vec![[0, 4, 3, 63, 67], refused(12), refused(13), refused(13)];
    for room in [4, 5, ROOM] {
        let batch = lift::batch(&chain, &rows, &regions, room, tally(0, 0, 0));
        assert_eq!(batch, Ok((tally(10, 4, 6), answers.clone())));
    }
}

#[test]
fn asked_at_its_limit_passes_over_one_region_of_a_batch() {
    let (chain, rows) = chain_a();
    let before = tally(TALLY_LIMIT - 5, TALLY_LIMIT - 5, 0);
    let regions = [(10, 16), (10, 15), (10, 11)];
    let (after, answers) = lift::batch(&chain, &rows, &regions, 3, before).unwrap();
    assert_eq!(answers, [refused(5), [0, 5, 0, 70, 75], refused(5)]);
    assert_eq!(after, tally(TALLY_LIMIT, TALLY_LIMIT, 0));
}

#[test]
fn a_bad_tally_refuses_every_region_inside() {
    let (chain, rows) = chain_a();
    let bad = tally(1, 1, 1);
    let regions = [(18, 25), (20, 20), (20, 23), (0, 101)];
    let (after, answers) = lift::batch(&chain, &rows, &regions, 4, bad).unwrap();
    assert_eq!(answers, [10, 13, 10, 13].map(refused));
    assert_eq!(after, bad);
}

#[test]
fn a_bad_chain_refuses_every_region() {
    let (chain, rows) = chain_a();
    let bad = Chain { t_end: 41, ..chain };
    let regions = [(18, 25), (20, 20), (20, 23)];
    for before in [tally(0, 0, 0), tally(1, 1, 1)] {
        let (after, answers) = lift::batch(&bad, &rows, &regions, 3, before).unwrap();
        assert_eq!(answers, [9, 9, 9].map(refused));
        assert_eq!(after, before);
    }
}

#[test]
fn room_for_a_batch_is_tested_first() {
    let (chain, rows) = chain_a();
    let bad = Chain { t_end: 41, ..chain };
    let regions = [(18, 25), (20, 20)];
    for room in [0, 1] {
        for chain in [&chain, &bad] {
            let batch = lift::batch(chain, &rows, &regions, room, tally(1, 1, 1));
            assert_eq!(number(batch), 11);
        }
    }
}

#[test]
fn a_batch_of_no_regions_is_good() {
    let (chain, rows) = chain_a();
    let bad = Chain { t_end: 41, ..chain };
    for chain in [&chain, &bad] {
        for before in [tally(10, 4, 6), tally(1, 1, 1)] {
            let batch = lift::batch(chain, &rows, &[], 0, before);
            assert_eq!(batch, Ok((before, vec![])));
        }
    }
}

#[test]
fn sums_pass_over_what_the_paper_names() {
    let (chain, rows) = chain_a();
    let bad = Chain { t_end: 41, ..chain };
    let sent = |chain, start, end| Sent {
        chain,
        table: &rows[..],
        start,
        end,
    };
    let regions = [
        sent(&chain, 18, 25),
        sent(&bad, 18, 25),
        sent(&chain, 20, 20),
        sent(&chain, 20, 101),
        sent(&chain, 20, 23),
    ];
    assert_eq!(lift::sums(&regions), tally(10, 4, 6));
    assert_eq!(lift::sums(&[]), tally(0, 0, 0));
}

#[test]
fn a_long_chain_is_listed_base_by_base() {
    let (chain, rows) = whole(1_000_000);
    let answer = lift::lift_position(&chain, &rows, 999_999).unwrap();
    assert_eq!((answer.partner, answer.drift), (999_999, 0));
    let answer = lift::lift_region(&chain, &rows, 5, 1_000_000).unwrap();
    assert_eq!((answer.kept, answer.dropped), (999_995, 0));
}
