//! PSL lines: bench samples, open points, the record checker and the writer.

mod common;

use common::{number, refusal, with, PSL_A, ROOM};
use reference::ledger::{Answer, Strand};
use reference::psl::{self, Names, Psl};
use reference::rows::Row;

fn read(text: &[u8]) -> Answer<(Psl, Vec<Row>)> {
    psl::read(text, ROOM)
}

fn refused(text: &[u8]) -> (u8, usize) {
    refusal(read(text))
}

/// Where a word of the sample line begins.
fn place(word: &str) -> usize {
    std::str::from_utf8(PSL_A).unwrap().find(word).unwrap()
}

#[test]
fn the_sample_is_accepted() {
    let (psl, rows) = read(PSL_A).unwrap();
    assert_eq!(psl.matches, 27);
    assert_eq!((psl.q_inserts.number, psl.q_inserts.bases), (1, 1));
    assert_eq!((psl.t_inserts.number, psl.t_inserts.bases), (1, 3));
    assert_eq!(psl.strand, Strand::Minus);
    assert_eq!((psl.q_size, psl.q_start, psl.q_end), (80, 47, 75));
    assert_eq!((psl.t_size, psl.t_start, psl.t_end), (100, 10, 40));
    let numbers: Vec<_> = rows
        .iter()
        .map(|row| (row.target, row.query, row.size))
        .collect();
    assert_eq!(numbers, [(10, 5, 10), (23, 15, 8), (31, 24, 9)]);
    let names = psl.names(PSL_A);
    assert_eq!((names.query, names.target), (&b"qB"[..], &b"tA"[..]));
}

#[test]
fn a_query_span_on_the_reversed_query_is_9() {
    let text = with(PSL_A, "47 75", "5 33");
    assert_eq!(refused(&text), (9, text.len()));
}

#[test]
fn a_plus_line_counts_both_sides_forward() {
    let text = b"14 5 0 0 1 20 1 20 + q 61 22 61 t 100 22 61 2 14,5 22,56 22,56";
    assert!(read(text).is_ok());
    let text = b"20 18 0 0 1 14 1 14 - q 61 4 56 t 100 5 57 2 20,18 5,39 5,39";
    assert!(read(text).is_ok());
}

#[test]
fn word_counts() {
    assert_eq!(refused(b""), (2, 0));
    assert_eq!(refused(b"\n"), (2, 0));
    let short = with(PSL_A, " 10,23,31,", " ");
    assert_eq!(refused(&short), (2, short.len()));
    let long = with(PSL_A, "10,23,31,", "10,23,31, x y");
    assert_eq!(refused(&long), (2, PSL_A.len() + 1));
}

#[test]
fn a_surplus_line_comes_after_the_words_and_before_7() {
    let text = with(PSL_A, "10,23,31,", "10,23,x,\n z");
    assert_eq!(refused(&text), (4, place("10,23") + 6));
    let text = with(PSL_A, "47 75", "75 47");
    let two = [&text[..], b"\n z"].concat();
    assert_eq!(refused(&two), (2, text.len() + 2));
    assert_eq!(refused(&text), (7, place("75 tA")));
}

#[test]
fn strands_are_two_letters() {
    assert_eq!(refused(&with(PSL_A, " - ", " . ")), (6, place("- qB")));
    assert_eq!(refused(&with(PSL_A, " - ", " +- ")), (6, place("- qB")));
}

#[test]
fn sizes_and_counts_have_ranges() {
    assert_eq!(refused(&with(PSL_A, "qB 80", "qB 0")), (5, place("80")));
    assert_eq!(refused(&with(PSL_A, "tA 100", "tA 0")), (5, place("100")));
    let over = with(PSL_A, "27 ", "2147483648 ");
    assert_eq!(refused(&over), (5, 0));
    let none = with(PSL_A, "40 3 ", "40 0 ");
    assert_eq!(refused(&none), (5, place("3 10,8")));
    let many = with(PSL_A, "40 3 ", "40 513 ");
    assert_eq!(refused(&many), (5, place("3 10,8")));
    let other = with(PSL_A, "40 3 ", "40 2 ");
    assert_eq!(refused(&other), (8, place("10,8")));
}

#[test]
fn spans_stand_at_qend_before_tend() {
    let text = with(PSL_A, "47 75", "47 81");
    assert_eq!(refused(&text), (7, place("75 tA")));
    let text = with(PSL_A, "10 40", "40 40");
    assert_eq!(refused(&text), (7, place("40 3 10")));
    let both = with(&with(PSL_A, "10 40", "40 40"), "47 75", "47 81");
    assert_eq!(refused(&both), (7, place("75 tA")));
    let zero = with(PSL_A, "47 75", "47 0");
    assert_eq!(refused(&zero), (7, place("75 tA")));
}

#[test]
fn blocks_come_before_counts() {
    let text = with(&with(PSL_A, "10,8,9,", "11,8,9,"), "27 ", "99 ");
    assert_eq!(refused(&text), (9, text.len()));
}

#[test]
fn counts_agree_with_the_blocks() {
    for (from, to) in [
        ("27 0 0 0", "26 0 0 0"),
        ("27 0 0 0", "27 1 0 0"),
        ("1 1 1 3", "2 1 1 3"),
        ("1 1 1 3", "1 2 1 3"),
        ("1 1 1 3", "1 1 2 3"),
        ("1 1 1 3", "1 1 1 4"),
    ] {
        let text = with(PSL_A, from, to);
        assert_eq!(refused(&text), (10, text.len()), "{to}");
    }
    assert!(read(&with(PSL_A, "27 0 0 0", "20 3 3 1")).is_ok());
}

#[test]
fn room_is_tested_last() {
    assert_eq!(refusal(psl::read(PSL_A, 2)), (11, PSL_A.len()));
    assert!(psl::read(PSL_A, 3).is_ok());
    assert!(psl::check(PSL_A).is_ok());
    let counts = with(PSL_A, "27 0", "26 0");
    assert_eq!(refusal(psl::read(&counts, 0)).0, 10);
}

const NAMES: Names<'static> = Names {
    query: b"qB",
    target: b"tA",
};

/// Asks checker and writer about a changed record: the checker refuses any
/// breach by 9, the writer by `by`.
fn breach(by: u8, change: impl Fn(&mut Psl, &mut Vec<Row>)) {
    let (mut psl, mut rows) = read(PSL_A).unwrap();
    change(&mut psl, &mut rows);
    assert_eq!(number(psl::check_record(&psl, &rows)), 9);
    assert_eq!(number(psl::write(&psl, NAMES, &rows, ROOM)), by);
}

#[test]
fn breaches_of_records() {
    let over = 2_147_483_648;
    breach(9, |psl, _| psl.block_count = 0);
    breach(9, |psl, _| psl.block_count = 4);
    breach(6, |psl, _| psl.strand = Strand::Dot);
    breach(5, |psl, _| psl.matches = over);
    breach(5, |psl, _| psl.q_inserts.bases = over);
    breach(5, |psl, _| psl.q_size = 0);
    breach(5, |psl, _| psl.t_size = u64::MAX);
    breach(5, |_, rows| rows[2].size = 0);
    breach(5, |_, rows| rows[2].query = over);
    breach(7, |psl, _| psl.q_end = 81);
    breach(7, |psl, _| psl.t_start = 40);
    breach(9, |psl, _| psl.q_size = 81);
    breach(9, |_, rows| rows[1].target = 19);
    breach(9, |_, rows| rows[1].size = 2_147_483_647);
    breach(10, |psl, _| psl.n_count = 1);
    breach(10, |psl, _| psl.t_inserts.number = 2);
}

#[test]
fn the_writers_order() {
    breach(9, |psl, _| {
        psl.block_count = 0;
        psl.strand = Strand::Dot;
    });
    breach(6, |psl, _| {
        psl.strand = Strand::Dot;
        psl.matches = u64::MAX;
    });
    breach(5, |psl, _| {
        psl.matches = u64::MAX;
        psl.q_end = 81;
    });
    breach(7, |psl, rows| {
        psl.q_end = 81;
        rows[1].target = 0;
    });
    breach(9, |psl, rows| {
        rows[1].target = 0;
        psl.matches = 0;
    });
}

#[test]
fn names_of_records_count_by_length() {
    let (mut psl, rows) = read(PSL_A).unwrap();
    psl.q_name.start = u64::MAX;
    assert_eq!(psl::check_record(&psl, &rows), Ok(()));
    psl.q_name.length = 65;
    assert_eq!(number(psl::check_record(&psl, &rows)), 9);
    assert!(psl::write(&psl, NAMES, &rows, ROOM).is_ok());
    let empty = Names {
        query: b"",
        ..NAMES
    };
    assert_eq!(number(psl::write(&psl, empty, &rows, ROOM)), 6);
}

#[test]
fn the_standard_text_has_tabs() {
    let (psl, rows) = read(PSL_A).unwrap();
    let text = psl::write(&psl, NAMES, &rows, ROOM).unwrap();
    let expected = std::str::from_utf8(PSL_A).unwrap().replace(' ', "\t") + "\n";
    assert_eq!(text, expected.as_bytes());
    assert!(psl::write(&psl, NAMES, &rows, text.len()).is_ok());
    assert_eq!(number(psl::write(&psl, NAMES, &rows, text.len() - 1)), 11);
}
