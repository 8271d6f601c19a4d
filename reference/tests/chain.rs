//! Chains: bench samples, open points, the record checker and the writer.

mod common;

use common::{chain_a, number, refusal, with, CHAIN_A, ROOM};
use reference::chain::{self, Chain, Names};
use reference::ledger::{Answer, Strand};
use reference::rows::Row;

const HEADER: &str = "chain 100 tA 100 + 10 40 qB 80 - 5 33 7";

fn read(text: &[u8]) -> Answer<(Chain, Vec<Row>)> {
    chain::read(text, ROOM)
}

fn refused(text: &[u8]) -> (u8, usize) {
    refusal(read(text))
}

/// Chain A's header and other block lines.
fn blocks(lines: &str) -> Vec<u8> {
    format!("{HEADER}\n{lines}").into_bytes()
}

/// The place of a block line's byte.
fn block_place(offset: usize) -> usize {
    HEADER.len() + 1 + offset
}

/// Chain A with another word in its header.
fn header(from: &str, to: &str) -> Vec<u8> {
    with(CHAIN_A, from, to)
}

/// A chain of `count` blocks of one base each, the last line open or closed.
fn many_blocks(count: usize, closed: bool) -> String {
    let last = if closed { "1\n" } else { "1 0 0\n" };
    format!(
        "chain 0 t 600 + 0 {count} q 600 + 0 {count} 1\n{}{last}",
        "1 0 0\n".repeat(count - 1)
    )
}

#[test]
fn chain_a_is_accepted() {
    let (chain, rows) = chain_a();
    assert_eq!((chain.score, chain.id, chain.block_count), (100, 7, 3));
    assert_eq!((chain.t_size, chain.t_start, chain.t_end), (100, 10, 40));
    assert_eq!((chain.q_size, chain.q_start, chain.q_end), (80, 5, 33));
    assert_eq!(chain.q_strand, Strand::Minus);
    let numbers: Vec<_> = rows
        .iter()
        .map(|row| (row.target, row.query, row.size))
        .collect();
    assert_eq!(numbers, [(10, 5, 10), (23, 15, 8), (31, 24, 9)]);
    let names = chain.names(CHAIN_A);
    assert_eq!((names.target, names.query), (&b"tA"[..], &b"qB"[..]));
    let unfed = &CHAIN_A[..CHAIN_A.len() - 1];
    assert_eq!(read(unfed), Ok((chain, rows)));
}

#[test]
fn a_last_size_of_10_is_9() {
    let text = blocks("10 3 0\n8 0 1\n10\n");
    assert_eq!(refused(&text), (9, text.len()));
}

#[test]
fn over_512_blocks_is_11() {
    let (chain, rows) = read(many_blocks(512, true).as_bytes()).unwrap();
    assert_eq!((chain.block_count, rows.len()), (512, 512));
    let text = many_blocks(513, true);
    assert_eq!(refused(text.as_bytes()), (11, text.len() - 2));
}

#[test]
fn the_513th_block_line_is_refused_before_its_words() {
    let open = many_blocks(512, false);
    assert_eq!(refused(open.as_bytes()), (2, open.len()));
    for further in ["\n", "  \n", "  1 2\n", "x"] {
        let text = open.clone() + further;
        assert_eq!(refused(text.as_bytes()), (11, open.len()));
    }
    let closed = many_blocks(512, true);
    let text = closed.clone() + "  1";
    assert_eq!(refused(text.as_bytes()), (2, closed.len() + 2));
}

#[test]
fn header_words() {
    assert_eq!(refused(b""), (2, 0));
    assert_eq!(refused(b"\n"), (2, 0));
    assert_eq!(refused(b"chain 1\n9\n"), (2, 7));
    assert_eq!(refused(b"chain"), (2, 5));
    assert_eq!(refused(b"chair 1"), (2, 7));
    assert_eq!(refused(&header("33 7", "33 7 8")), (2, HEADER.len() + 1));
    assert_eq!(refused(&header("chain", "Chain")), (6, 0));
    assert_eq!(refused(&header(" + ", " - ")), (6, 17));
    assert_eq!(refused(&header(" - ", " . ")), (6, 31));
    assert_eq!(refused(&header(" - ", " +- ")), (6, 31));
    assert_eq!(refused(&header("tA 100", "tA 0")), (5, 13));
    assert_eq!(refused(&header("qB 80", "qB 080")), (4, 28));
    assert_eq!(refused(&header("tA", &"a".repeat(65))), (6, 10));
}

#[test]
fn scores_and_ids_have_limits() {
    let score = |to: &str| header("chain 100", &format!("chain {to}"));
    assert!(read(&score("999999999999999999")).is_ok());
    assert_eq!(refused(&score("1000000000000000000")), (5, 6));
    let id = |to: &str| header("33 7", &format!("33 {to}"));
    assert!(read(&id("4294967295")).is_ok());
    assert_eq!(refused(&id("4294967296")), (5, HEADER.len() - 1));
}

#[test]
fn the_headers_7_comes_before_any_block_line() {
    assert_eq!(refused(&header("10 40", "40 40")), (7, 22));
    assert_eq!(refused(&header("10 40", "10 101")), (7, 22));
    assert_eq!(refused(&header("5 33", "33 33")), (7, 36));
    assert_eq!(refused(&header("5 33", "5 81")), (7, 35));
    let both = with(&header("5 33", "5 0"), "10 40", "10 0");
    assert_eq!(refused(&both), (7, 22));
    assert_eq!(refused(b"chain 1 t 9 + 5 4 q 9 + 1 2 1"), (7, 16));
    assert_eq!(refused(b"chain 1 t 9 + 5 4 q 9 + 1 2 1\nx y"), (7, 16));
}

#[test]
fn block_lines_have_one_or_three_words() {
    assert_eq!(refused(HEADER.as_bytes()), (2, HEADER.len()));
    assert_eq!(refused(&blocks("")), (2, HEADER.len() + 1));
    assert_eq!(refused(&blocks("10 3 0\n8 0 1\n")), (2, block_place(13)));
    assert_eq!(refused(&blocks("\n9\n")), (2, block_place(0)));
    assert_eq!(refused(&blocks("10 3 \n")), (2, block_place(5)));
    assert_eq!(refused(&blocks("10 3 0 4 5\n")), (2, block_place(7)));
    assert_eq!(refused(&blocks("x 3 0 4\n")), (2, block_place(6)));
}

#[test]
fn block_numbers_have_ranges() {
    assert_eq!(refused(&blocks("0 3 0\n")), (5, block_place(0)));
    assert_eq!(refused(&blocks("0\n")), (5, block_place(0)));
    assert_eq!(refused(&blocks("1 2147483648 x\n")), (5, block_place(2)));
    assert_eq!(refused(&blocks("1 0 -1\n")), (4, block_place(4)));
    let text = blocks("1 2147483647 2147483647\n1\n");
    assert_eq!(refused(&text), (9, text.len()));
}

#[test]
fn a_line_after_the_size_alone_is_surplus() {
    let at = CHAIN_A.len();
    let more = |further: &str| [CHAIN_A, further.as_bytes()].concat();
    assert_eq!(refused(&more("\n")), (2, at));
    assert_eq!(refused(&more("  ")), (2, at + 2));
    assert_eq!(refused(&more(" \t1 2")), (2, at + 2));
    let bad_blocks = blocks("10\n\n");
    assert_eq!(refused(&bad_blocks), (2, block_place(3)));
}

#[test]
fn gaps_may_be_0() {
    assert!(read(b"chain 0 t 9 + 1 5 q 9 - 0 4 0\n2 0 0\n2\n").is_ok());
}

#[test]
fn bytes_and_length_come_first() {
    let text = [b"chair\n", &[b'\r'][..]].concat();
    assert_eq!(refused(&text), (3, 6));
    assert_eq!(refused(&vec![0; 65_537]), (1, 0));
}

#[test]
fn room_is_tested_last() {
    assert_eq!(refusal(chain::read(CHAIN_A, 2)), (11, CHAIN_A.len()));
    assert!(chain::read(CHAIN_A, 3).is_ok());
    assert!(chain::check(CHAIN_A).is_ok());
    assert_eq!(refusal(chain::read(&blocks("9\n"), 0)).0, 9);
}

const NAMES: Names<'static> = Names {
    target: b"tA",
    query: b"qB",
};

/// Asks checker and writer about a changed record: the checker refuses any
/// breach by 9, the writer by `by`.
fn breach(by: u8, change: impl Fn(&mut Chain, &mut Vec<Row>)) {
    let (mut chain, mut rows) = chain_a();
    change(&mut chain, &mut rows);
    assert_eq!(number(chain::check_record(&chain, &rows)), 9);
    assert_eq!(number(chain::write(&chain, NAMES, &rows, ROOM)), by);
}

#[test]
fn breaches_of_records() {
    let over = 2_147_483_648;
    breach(9, |chain, _| chain.block_count = 0);
    breach(9, |chain, _| chain.block_count = 4);
    breach(9, |chain, rows| {
        chain.block_count = 513;
        rows.resize(513, rows[0]);
    });
    breach(6, |chain, _| chain.q_strand = Strand::Dot);
    breach(5, |chain, _| chain.score = 1_000_000_000_000_000_000);
    breach(5, |chain, _| chain.id = 4_294_967_296);
    breach(5, |chain, _| chain.t_size = 0);
    breach(5, |chain, _| chain.q_end = over);
    breach(5, |_, rows| rows[0].size = 0);
    breach(5, |_, rows| rows[2].target = u64::MAX);
    breach(7, |chain, _| chain.t_end = 101);
    breach(7, |chain, _| chain.q_start = 33);
    breach(9, |chain, _| chain.t_end = 41);
    breach(9, |_, rows| rows[1].query = 14);
    breach(9, |_, rows| rows[2].size = 2_147_483_647);
}

#[test]
fn the_writers_order() {
    breach(9, |chain, _| {
        chain.block_count = 0;
        chain.q_strand = Strand::Dot;
    });
    breach(6, |chain, _| {
        chain.q_strand = Strand::Dot;
        chain.score = u64::MAX;
    });
    breach(5, |chain, rows| {
        rows[2].size = 0;
        chain.t_end = 101;
    });
    breach(7, |chain, rows| {
        chain.t_end = 101;
        rows[0].target = 0;
    });
}

#[test]
fn names_of_records_count_by_length() {
    let (mut chain, rows) = chain_a();
    chain.t_name.start = u64::MAX;
    assert_eq!(chain::check_record(&chain, &rows), Ok(()));
    chain.t_name.length = 0;
    assert_eq!(number(chain::check_record(&chain, &rows)), 9);
    assert!(chain::write(&chain, NAMES, &rows, ROOM).is_ok());
    let blank = Names {
        target: b"t A",
        ..NAMES
    };
    assert_eq!(number(chain::write(&chain, blank, &rows, ROOM)), 6);
}

#[test]
fn the_standard_text_has_spaces_and_no_blank_line() {
    let loose = with(CHAIN_A, "tA 100", "tA \t100");
    let (chain, rows) = read(&loose).unwrap();
    let text = chain::write(&chain, NAMES, &rows, ROOM).unwrap();
    assert_eq!(text, CHAIN_A);
    assert!(chain::write(&chain, NAMES, &rows, text.len()).is_ok());
    assert_eq!(
        number(chain::write(&chain, NAMES, &rows, text.len() - 1)),
        11
    );
}
