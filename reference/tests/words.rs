//! Lines, words, numbers, lists, names, strands, colours and texts of numbers.

mod common;

use common::refusal;
use reference::ledger::{Strand, COORDINATE_LIMIT};
use reference::numbers;
use reference::text::{self, Line};

fn spans(bytes: &[u8]) -> Vec<(usize, usize)> {
    let line = Line { start: 0, bytes };
    let words = text::words(&line);
    words.iter().map(|word| (word.start, word.end())).collect()
}

fn line_spans(text: &[u8]) -> Vec<(usize, usize)> {
    let lines = text::lines(text);
    lines.iter().map(|line| (line.start, line.end())).collect()
}

fn list(word: &[u8]) -> Result<Vec<u64>, (u8, usize)> {
    let answer = text::list(word, 0, COORDINATE_LIMIT, true, None);
    answer.map_err(|refusal| (refusal.reason.number(), refusal.place))
}

fn of_64_bits(word: &[u8]) -> Result<u64, (u8, usize)> {
    let answer = text::number(word, 0, u64::MAX);
    answer.map_err(|refusal| (refusal.reason.number(), refusal.place))
}

/// The numbers of a text, with room for any.
fn read(text: &[u8]) -> Result<Vec<u64>, (u8, usize)> {
    let answer = numbers::read(text, usize::MAX);
    answer.map_err(|refusal| (refusal.reason.number(), refusal.place))
}

fn coordinate(word: &[u8]) -> Result<u64, (u8, usize)> {
    let answer = text::number(word, 0, COORDINATE_LIMIT);
    answer.map_err(|refusal| (refusal.reason.number(), refusal.place))
}

#[test]
fn lengths_come_before_bytes() {
    assert_eq!(text::check_text(&[b'a'; 65_536]), Ok(()));
    assert_eq!(refusal(text::check_text(&[0; 65_537])), (1, 0));
    assert_eq!(refusal(text::check_text(b"ab\x00\x01")), (3, 2));
}

#[test]
fn allowed_bytes_are_tab_feed_and_32_to_126() {
    for byte in 0..=255u8 {
        let allowed = byte == 9 || byte == 10 || (32..=126).contains(&byte);
        assert_eq!(text::check_text(&[byte]).is_ok(), allowed, "byte {byte}");
    }
}

#[test]
fn lines_end_at_a_line_feed() {
    assert_eq!(line_spans(b""), []);
    assert_eq!(line_spans(b"\n"), [(0, 0)]);
    assert_eq!(line_spans(b"a"), [(0, 1)]);
    assert_eq!(line_spans(b"a\n"), [(0, 1)]);
    assert_eq!(line_spans(b"a\n\n"), [(0, 1), (2, 2)]);
    assert_eq!(line_spans(b"a\n "), [(0, 1), (2, 3)]);
}

#[test]
fn words_are_parted_by_blanks() {
    assert_eq!(spans(b""), []);
    assert_eq!(spans(b" \t "), []);
    assert_eq!(spans(b" a\t\tbb "), [(1, 2), (4, 6)]);
}

#[test]
fn numbers_are_digits_without_leading_zero() {
    assert_eq!(coordinate(b"0"), Ok(0));
    assert_eq!(coordinate(b"2147483647"), Ok(2_147_483_647));
    let misspelt: [&[u8]; 9] = [
        b"", b"007", b"00", b"+5", b"-1", b"1.5", b"1e3", b"567,488", b" 5",
    ];
    for word in misspelt {
        assert_eq!(coordinate(word), Err((4, 0)), "{word:?}");
    }
}

#[test]
fn a_well_spelt_number_of_any_length_is_out_of_range() {
    assert_eq!(coordinate(b"2147483648"), Err((5, 0)));
    assert_eq!(coordinate(&[b'9'; 300]), Err((5, 0)));
    assert_eq!(coordinate(&[b'0'; 300]), Err((4, 0)));
    assert_eq!(refusal(text::number(b"0", 1, 9)), (5, 0));
    assert_eq!(
        text::number(b"18446744073709551615", 0, u64::MAX),
        Ok(u64::MAX)
    );
    assert_eq!(
        refusal(text::number(b"18446744073709551616", 0, u64::MAX)),
        (5, 0)
    );
}

#[test]
fn numbers_of_18_to_21_digits() {
    for value in [
        99_999_999_999_999_999,
        999_999_999_999_999_999,
        1_000_000_000_000_000_000,
        9_999_999_999_999_999_999,
        10_000_000_000_000_000_000,
        18_446_744_073_709_551_615,
    ] {
        assert_eq!(of_64_bits(value.to_string().as_bytes()), Ok(value));
    }
    let too_large: [&[u8]; 6] = [
        b"18446744073709551616",
        b"18446744073709551620",
        b"99999999999999999999",
        b"100000000000000000000",
        b"184467440737095516150",
        &[b'9'; 60_000],
    ];
    for word in too_large {
        assert_eq!(of_64_bits(word), Err((5, 0)));
    }
    let misspelt: [&[u8]; 6] = [
        b"018446744073709551615",
        b"00000000000000000000",
        b"1844674407370955161x",
        b"99999999999999999999x",
        b"x9999999999999999999",
        &[b'0'; 60_000],
    ];
    for word in misspelt {
        assert_eq!(of_64_bits(word), Err((4, 0)));
    }
    let far = [&[b'9'; 60_000][..], b"x"].concat();
    assert_eq!(of_64_bits(&far), Err((4, 0)));
}

#[test]
fn bytes_beside_the_digits_are_none() {
    for word in [&b"1:"[..], b":1", b"/1", b"1/", b":", b"/"] {
        assert_eq!(of_64_bits(word), Err((4, 0)), "{word:?}");
    }
}

#[test]
fn lists_keep_every_item() {
    assert_eq!(list(b"567,488,"), Ok(vec![567, 488]));
    assert_eq!(list(b"567,488"), Ok(vec![567, 488]));
    assert_eq!(list(b"5"), Ok(vec![5]));
}

#[test]
fn an_empty_item_stands_where_it_should() {
    assert_eq!(list(b""), Err((4, 0)));
    assert_eq!(list(b","), Err((4, 0)));
    assert_eq!(list(b"5,,"), Err((4, 2)));
    assert_eq!(list(b"5,,6"), Err((4, 2)));
    assert_eq!(list(b",5"), Err((4, 0)));
}

#[test]
fn the_first_bad_item_decides_and_the_count_comes_last() {
    assert_eq!(list(b"1,2147483648,x"), Err((5, 2)));
    assert_eq!(list(b"1,x,2147483648"), Err((4, 2)));
    let counted = |word| text::list(word, 0, 9, true, Some(2));
    assert_eq!(refusal(counted(b"1,2,3,x")), (4, 6));
    assert_eq!(refusal(counted(b"1,2,3")), (8, 0));
    assert_eq!(refusal(counted(b"1")), (8, 0));
}

#[test]
fn items_past_512_are_tested_before_the_count() {
    let word = "1,".repeat(600) + "x";
    assert_eq!(
        refusal(text::list(word.as_bytes(), 0, 9, true, Some(512))),
        (4, 1200)
    );
}

#[test]
fn colours_have_one_short_form() {
    assert_eq!(text::colour(b"0"), Ok([0, 0, 0]));
    assert_eq!(text::colour(b"0,0,0"), Ok([0, 0, 0]));
    assert_eq!(text::colour(b"255,255,255"), Ok([255, 255, 255]));
    assert_eq!(refusal(text::colour(b"1,2,3,")), (4, 6));
    assert_eq!(refusal(text::colour(b"1")), (8, 0));
    assert_eq!(refusal(text::colour(b"0,")), (4, 2));
    assert_eq!(refusal(text::colour(b"256")), (5, 0));
    assert_eq!(refusal(text::colour(b"1,2,3,256")), (5, 6));
    assert_eq!(refusal(text::colour(b"1,2,3,4")), (8, 0));
    assert_eq!(refusal(text::colour(b"00")), (4, 0));
}

#[test]
fn names_have_1_to_64_bytes() {
    assert_eq!(text::name(&[b'a'; 64]), Ok(&[b'a'; 64][..]));
    assert_eq!(text::name(b"."), Ok(&b"."[..]));
    assert_eq!(refusal(text::name(b"")), (6, 0));
    assert_eq!(refusal(text::name(&[b'a'; 65])), (6, 0));
}

#[test]
fn strands_are_one_letter() {
    assert_eq!(text::strand(b"+", false), Ok(Strand::Plus));
    assert_eq!(text::strand(b"-", false), Ok(Strand::Minus));
    assert_eq!(text::strand(b".", true), Ok(Strand::Dot));
    assert_eq!(refusal(text::strand(b".", false)), (6, 0));
    assert_eq!(refusal(text::strand(b"+-", true)), (6, 0));
    assert_eq!(refusal(text::strand(b"", true)), (6, 0));
}

#[test]
fn fixed_words_are_exact() {
    assert_eq!(text::fixed(b"chain", "chain"), Ok(()));
    assert_eq!(refusal(text::fixed(b"Chain", "chain")), (6, 0));
    assert_eq!(refusal(text::fixed(b"chains", "chain")), (6, 0));
}

/// Where a part of a text begins.
fn offset(text: &[u8], part: &[u8]) -> usize {
    part.as_ptr() as usize - text.as_ptr() as usize
}

#[test]
fn a_name_is_handed_back_as_its_part_of_the_text() {
    let text = b"abcdef";
    assert_eq!(text::name_in(text, 1, 3), b"bcd");
    assert_eq!(text::name_in(text, 5, 1), b"f");
    for (start, length, place) in [
        (2, 0, 2),
        (6, 0, 6),
        (5, 2, 6),
        (7, 0, 6),
        (u64::MAX, 1, 6),
        (1, u64::MAX, 6),
        (u64::MAX, u64::MAX, 6),
    ] {
        let part = text::name_in(text, start, length);
        assert!(part.is_empty());
        assert_eq!(offset(text, part), place, "{start} {length}");
    }
}

#[test]
fn a_text_of_numbers_has_any_number_of_words() {
    let none: [&[u8]; 4] = [b"", b"\n", b" \t", b"\t \n"];
    for text in none {
        assert_eq!(read(text), Ok(vec![]), "{text:?}");
    }
    assert_eq!(read(b"0"), Ok(vec![0]));
    assert_eq!(read(b"567 488\n"), Ok(vec![567, 488]));
    assert_eq!(read(b" \t567\t\t 488 \n"), Ok(vec![567, 488]));
    assert_eq!(read(&b"1 ".repeat(32_768)), Ok(vec![1; 32_768]));
}

#[test]
fn each_word_of_a_text_of_numbers_is_one() {
    assert_eq!(
        read(b"999999999999999999 1"),
        Ok(vec![999_999_999_999_999_999, 1])
    );
    assert_eq!(read(b"1 1000000000000000000"), Err((5, 2)));
    assert_eq!(read(b"1 18446744073709551616 x"), Err((5, 2)));
    assert_eq!(read(b"1\t x 18446744073709551616"), Err((4, 3)));
    assert_eq!(read(b"567,488"), Err((4, 0)));
    assert_eq!(read(b"1 007"), Err((4, 2)));
    assert_eq!(read(b"-1"), Err((4, 0)));
}

#[test]
fn a_surplus_line_comes_after_the_words() {
    assert_eq!(read(b"1\n2"), Err((2, 2)));
    assert_eq!(read(b"1\n \t2\n"), Err((2, 4)));
    assert_eq!(read(b"1\n\n"), Err((2, 2)));
    assert_eq!(read(b"1\n \t\n"), Err((2, 4)));
    assert_eq!(read(b"\n\n"), Err((2, 1)));
    assert_eq!(read(b"x\n2"), Err((4, 0)));
    assert_eq!(read(b"1000000000000000000\n2"), Err((5, 0)));
}

#[test]
fn length_and_bytes_come_before_the_words() {
    assert_eq!(read(&[b' '; 65_536]), Ok(vec![]));
    assert_eq!(read(&[b'x'; 65_537]), Err((1, 0)));
    assert_eq!(read(b"x 1\n2 \x7F"), Err((3, 6)));
    assert_eq!(read(b"1\r\n"), Err((3, 1)));
}

#[test]
fn room_for_the_numbers_comes_last() {
    let text = b"1 2 3\n";
    assert_eq!(numbers::read(text, 3), Ok(vec![1, 2, 3]));
    assert_eq!(refusal(numbers::read(text, 2)), (11, 6));
    assert_eq!(refusal(numbers::read(text, 0)), (11, 6));
    assert_eq!(refusal(numbers::read(b"1 2 3\n\n", 0)), (2, 6));
    assert_eq!(refusal(numbers::read(b"1 2 x", 0)), (4, 4));
    assert_eq!(numbers::read(b" \n", 0), Ok(vec![]));
}
