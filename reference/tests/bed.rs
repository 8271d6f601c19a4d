//! BED lines: bench samples, open points, the record checker and the writer.

mod common;

use common::{number, refusal, with, BED_000, BED_001, ROOM};
use reference::bed::{self, Bed, Names};
use reference::ledger::{Answer, Strand};
use reference::rows::Row;

fn read(text: &[u8]) -> Answer<(Bed, Vec<Row>)> {
    bed::read(text, ROOM)
}

fn refused(text: &str) -> (u8, usize) {
    refusal(read(text.as_bytes()))
}

fn row(target: u64, query: u64, size: u64) -> Row {
    Row {
        target,
        query,
        size,
    }
}

/// A record of 512 blocks of one base each, or of another number of them.
fn many_blocks(count: u64) -> String {
    let ones = "1,".repeat(count as usize);
    let starts: String = (0..count).map(|start| format!("{start},")).collect();
    format!("c 0 {count} n 0 + 0 {count} 0 {count} {ones} {starts}")
}

#[test]
fn sample_of_000_is_accepted() {
    let (bed, rows) = read(BED_000).unwrap();
    assert_eq!(bed.word_count, 12);
    assert_eq!((bed.chrom_start, bed.chrom_end), (1000, 5000));
    assert_eq!((bed.thick_start, bed.thick_end), (1000, 5000));
    assert_eq!((bed.score, bed.strand), (960, Strand::Plus));
    assert_eq!((bed.colour, bed.block_count), ([0, 0, 0], 2));
    assert_eq!(rows, [row(1000, 0, 567), row(4512, 567, 488)]);
    let names = bed.names(BED_000);
    assert_eq!((names.chrom, names.name), (&b"chr22"[..], &b"cloneA"[..]));
}

#[test]
fn sample_of_000_cut_by_one_base_is_9() {
    let text = b"chr22 1000 4999 cloneA 960 + 1000 4999 0 2 567,488, 0,3512";
    assert_eq!(refusal(read(text)), (9, text.len()));
}

#[test]
fn sample_of_001_has_touching_blocks() {
    let (_, rows) = read(BED_001).unwrap();
    assert_eq!(rows, [row(156881, 0, 231), row(157112, 231, 384)]);
}

#[test]
fn scores_go_to_1000() {
    assert!(read(&with(BED_000, "960", "1000")).is_ok());
    assert_eq!(refusal(read(&with(BED_000, "960", "1001"))), (5, 23));
    assert_eq!(refusal(read(&with(BED_000, "960", "007"))), (4, 23));
}

#[test]
fn block_counts_go_to_512() {
    let (bed, rows) = read(many_blocks(512).as_bytes()).unwrap();
    assert_eq!((bed.block_count, rows.len()), (512, 512));
    let text = many_blocks(513);
    assert_eq!(refused(&text), (5, text.find("513 1,").unwrap()));
}

#[test]
fn columns_left_out_hold_defaults() {
    let text = b"c 5 9\n";
    let (bed, rows) = read(text).unwrap();
    assert_eq!(bed.word_count, 3);
    assert_eq!((bed.name.start, bed.name.length), (6, 0));
    assert_eq!((bed.score, bed.strand), (0, Strand::Dot));
    assert_eq!((bed.thick_start, bed.thick_end), (5, 9));
    assert_eq!((bed.colour, bed.block_count), ([0, 0, 0], 1));
    assert_eq!(rows, [row(5, 0, 4)]);
}

#[test]
fn a_dot_in_the_fourth_column_is_a_name() {
    let (bed, _) = read(b"c 5 9 .").unwrap();
    assert_eq!(bed.names(b"c 5 9 .").name, b".");
}

#[test]
fn word_counts() {
    let words: Vec<&str> = "c 5 9 n 0 + 5 9 0 1 4 0 x".split(' ').collect();
    for count in 0..=13 {
        let text = words[..count].join(" ");
        match count {
            3..=9 | 12 => assert!(read(text.as_bytes()).is_ok(), "{text}"),
            13 => assert_eq!(refused(&text), (2, 24)),
            _ => assert_eq!(refused(&text), (2, text.len())),
        }
    }
    assert_eq!(refused("c 5 9 n 0 + 5 9 0 1 \n\n"), (2, 20));
    assert_eq!(refused("c 5 9 n 0 + 5 9 0 1 4"), (2, 21));
}

#[test]
fn texts_without_a_good_line() {
    assert_eq!(refused(""), (2, 0));
    assert_eq!(refused("\n"), (2, 0));
    assert_eq!(refused("  \n"), (2, 2));
    assert_eq!(refused("c 5\nc 5 9"), (2, 3));
}

#[test]
fn a_surplus_line_is_refused_in_its_turn() {
    assert_eq!(refused("c 1 x\nc"), (4, 4));
    assert_eq!(refused("c 2 1\nc"), (2, 6));
    assert_eq!(refused("c 1 2\n  c d\ne"), (2, 8));
    assert_eq!(refused("c 1 2\n\n"), (2, 6));
    assert_eq!(refused("c 1 2\n  "), (2, 8));
    assert_eq!(refused("c 1 2\n "), (2, 7));
    assert!(read(b"c 1 2\n").is_ok());
    assert!(read(b"  c\t1   2 \t\n").is_ok());
}

#[test]
fn no_special_case_for_track_browser_and_comment_lines() {
    assert_eq!(refused("track name=a x"), (4, 6));
    assert_eq!(refused("browser hide all"), (4, 8));
    assert_eq!(refused("# a"), (2, 3));
    assert_eq!(refused("#c 1 2\nc 1 2"), (2, 7));
}

#[test]
fn length_and_bytes_come_first() {
    assert_eq!(refused(&" ".repeat(65_537)), (1, 0));
    assert_eq!(refused("c\r"), (3, 1));
    assert_eq!(refusal(read(b"c 1 2\n\x80")), (3, 6));
}

#[test]
fn words_from_the_left() {
    assert_eq!(refused(&("a".repeat(65) + " x 9")), (6, 0));
    assert_eq!(refused("c 5 x n 0 * 5 9 0 1 4 0"), (4, 4));
    assert_eq!(refused("c 5 9 n 0 * 5 9 0 1 4 0"), (6, 10));
    assert_eq!(refused("c 5 9 n 0 +- 5 9 0 1 4 0"), (6, 10));
    assert_eq!(refused("c 5 9 n 0 . 5 9 0 0 4 0"), (5, 18));
    assert_eq!(refused("c 5 9 n 0 . 5 9 0 1 0 0"), (5, 20));
    assert_eq!(refused("c 5 9 n 0 . 5 9 0 1 4,4 x"), (8, 20));
    assert_eq!(refused("c 5 9 n 0 . 5 9 0 1 4 x"), (4, 22));
    assert_eq!(refused("c 5 9 n 0 . 5 9 0 1 4 0,0"), (8, 22));
    assert_eq!(refused("c 5 9 n 0 . 5 9 0 1 4,, 0"), (4, 22));
}

#[test]
fn item_colours() {
    let line = |colour: &str| format!("c 5 9 n 0 . 5 9 {colour}");
    assert_eq!(refused(&line("1,2,3,")), (4, 22));
    assert_eq!(refused(&line("1")), (8, 16));
    assert_eq!(refused(&line("256")), (5, 16));
    assert_eq!(refused(&line("1,2,3,256")), (5, 22));
    assert_eq!(refused(&line("00")), (4, 16));
    let (bed, rows) = read(line("0,0,0").as_bytes()).unwrap();
    let names = Names {
        chrom: b"c",
        name: b"n",
    };
    let text = bed::write(&bed, names, &rows, ROOM).unwrap();
    assert_eq!(text, b"c\t5\t9\tn\t0\t.\t5\t9\t0\n");
}

#[test]
fn spans_stand_at_the_ends_word() {
    assert_eq!(refused("c 2 2"), (7, 4));
    assert_eq!(refused("c 0 0"), (7, 4));
    assert_eq!(refused("c 9 5 n 0 + 1 2"), (7, 4));
    assert_eq!(refused("c 5 9 n 0 + 4 9"), (7, 14));
    assert_eq!(refused("c 5 9 n 0 + 8 7"), (7, 14));
    assert_eq!(refused("c 5 9 n 0 + 5 10 0"), (7, 14));
    assert_eq!(refused("c 5 9 n 0 + 4"), (7, 12));
    assert_eq!(refused("c 5 9 n 0 + 10"), (7, 12));
    assert!(read(b"c 5 9 n 0 + 9").is_ok());
    assert!(read(b"c 5 9 n 0 + 5 5").is_ok());
}

#[test]
fn a_span_comes_before_blocks() {
    assert_eq!(refused("c 9 5 n 0 + 9 5 0 1 7 7"), (7, 4));
}

#[test]
fn blocks_fill_the_span_in_order() {
    let line = |sizes: &str, starts: &str| format!("c 5 9 n 0 + 5 9 0 2 {sizes} {starts}");
    assert!(read(line("1,1", "0,3").as_bytes()).is_ok());
    for (sizes, starts) in [
        ("1,1", "1,3"),
        ("1,1", "0,2"),
        ("1,1", "0,4"),
        ("2,3", "0,1"),
        ("1,2147483647", "0,2147483647"),
    ] {
        let text = line(sizes, starts);
        assert_eq!(refused(&text), (9, text.len()));
    }
}

#[test]
fn room_is_tested_last() {
    let end = BED_000.len();
    assert_eq!(refusal(bed::read(BED_000, 1)), (11, end));
    assert!(bed::read(BED_000, 2).is_ok());
    assert!(bed::check(BED_000).is_ok());
    assert_eq!(refusal(bed::read(b"c 5 9", 0)), (11, 5));
    let broken = with(BED_000, "567", "0");
    assert_eq!(refusal(bed::read(&broken, 0)).0, 5);
}

/// A record of `count` words with the names and rows that belong to it.
fn record(count: u64) -> (Bed, Names<'static>, Vec<Row>) {
    let words: Vec<&str> = "c 5 9 n 7 + 6 8 1,2,3 2 1,2 0,2".split(' ').collect();
    let text = words[..count as usize].join(" ");
    let (bed, rows) = read(text.as_bytes()).unwrap();
    let names = Names {
        chrom: b"c",
        name: if count < 4 { b"" } else { b"n" },
    };
    (bed, names, rows)
}

#[test]
fn accepted_records_pass_their_checker() {
    for count in [3, 4, 5, 6, 7, 8, 9, 12] {
        let (bed, _, rows) = record(count);
        assert_eq!(bed::check_record(&bed, &rows), Ok(()));
    }
}

/// Asks checker and writer about a changed record of `count` words: the checker
/// refuses any breach by 9, the writer by `by`.
fn breach(count: u64, by: u8, change: impl Fn(&mut Bed, &mut Names, &mut Vec<Row>)) {
    let (mut bed, mut names, mut rows) = record(count);
    change(&mut bed, &mut names, &mut rows);
    assert_eq!(number(bed::check_record(&bed, &rows)), 9);
    assert_eq!(number(bed::write(&bed, names, &rows, ROOM)), by);
}

#[test]
fn row_counts() {
    breach(12, 9, |bed, _, _| bed.block_count = 0);
    breach(12, 9, |bed, _, _| bed.block_count = 3);
    breach(12, 9, |bed, _, rows| {
        bed.block_count = 513;
        rows.resize(600, row(0, 0, 1));
    });
    breach(12, 9, |bed, _, _| bed.block_count = u64::MAX);
}

#[test]
fn columns_left_out_must_hold_their_defaults() {
    breach(3, 6, |bed, names, _| {
        bed.name.length = 1;
        names.name = b"n";
    });
    breach(4, 5, |bed, _, _| bed.score = 1);
    breach(5, 6, |bed, _, _| bed.strand = Strand::Plus);
    breach(6, 5, |bed, _, _| bed.thick_start = 6);
    breach(7, 5, |bed, _, _| bed.thick_end = 8);
    breach(8, 5, |bed, _, _| bed.colour = [0, 0, 1]);
    breach(9, 9, |bed, _, rows| {
        bed.block_count = 2;
        *rows = vec![row(5, 0, 2), row(7, 2, 2)];
    });
    breach(9, 9, |_, _, rows| rows[0] = row(6, 0, 3));
}

#[test]
fn word_counts_of_records() {
    for count in [0, 1, 2, 10, 11, 13, u64::MAX] {
        let (mut bed, names, rows) = record(12);
        bed.word_count = count;
        assert_eq!(number(bed::check_record(&bed, &rows)), 9);
        let by = number(bed::write(&bed, names, &rows, ROOM));
        assert_eq!(by, if count < 4 { 6 } else { 5 });
    }
}

#[test]
fn numbers_of_records() {
    let over = 2_147_483_648;
    breach(12, 5, |bed, _, _| bed.score = 1001);
    breach(12, 5, |bed, _, _| bed.colour[2] = 256);
    breach(12, 5, |bed, _, _| bed.chrom_end = over);
    breach(12, 5, |bed, _, _| bed.thick_end = over);
    breach(12, 5, |_, _, rows| rows[1].size = 0);
    breach(12, 5, |_, _, rows| rows[1].query = over);
    breach(12, 5, |_, _, rows| rows[1].target = over);
    breach(3, 5, |_, _, rows| rows[0].query = over);
    breach(12, 9, |_, _, rows| rows[1].size = 2_147_483_647);
    breach(12, 9, |_, _, rows| rows[1].query = 2);
    breach(12, 9, |_, _, rows| rows[0].target = 4);
    breach(12, 7, |bed, _, _| bed.thick_start = 4);
    breach(12, 7, |bed, _, _| bed.chrom_start = 9);
}

#[test]
fn the_writers_order() {
    breach(12, 9, |bed, _, _| {
        bed.block_count = 0;
        bed.score = 1001;
    });
    breach(5, 6, |bed, _, _| {
        bed.strand = Strand::Minus;
        bed.score = 1001;
    });
    breach(12, 5, |bed, _, _| {
        bed.score = 1001;
        bed.thick_end = 10;
    });
    breach(12, 7, |bed, _, rows| {
        bed.thick_end = 10;
        rows[0].target = 4;
    });
}

#[test]
fn names_of_a_writer() {
    let (bed, names, rows) = record(4);
    let long = [b'a'; 65];
    let bad: [&[u8]; 5] = [b"", &long, b"a b", b"\x7f", b"\n"];
    for word in bad {
        let chrom = Names {
            chrom: word,
            ..names
        };
        let name = Names {
            name: word,
            ..names
        };
        assert_eq!(number(bed::write(&bed, chrom, &rows, ROOM)), 6);
        assert_eq!(number(bed::write(&bed, name, &rows, ROOM)), 6);
    }
}

#[test]
fn a_writer_ignores_the_records_places() {
    let (mut bed, names, rows) = record(4);
    bed.chrom.start = u64::MAX;
    bed.name.start = u64::MAX;
    let text = bed::write(&bed, names, &rows, ROOM).unwrap();
    assert_eq!(text, b"c\t5\t9\tn\n");
}

#[test]
fn exact_room_is_enough_for_a_writer() {
    let (bed, rows) = read(BED_000).unwrap();
    let names = bed.names(BED_000);
    let text = bed::write(&bed, names, &rows, ROOM).unwrap();
    let expected = "chr22\t1000\t5000\tcloneA\t960\t+\t1000\t5000\t0\t2\t567,488,\t0,3512,\n";
    assert_eq!(text, expected.as_bytes());
    assert!(bed::write(&bed, names, &rows, text.len()).is_ok());
    assert_eq!(number(bed::write(&bed, names, &rows, text.len() - 1)), 11);
}

#[test]
fn rows_past_the_count_are_never_looked_at() {
    let (bed, names, mut rows) = record(12);
    rows.push(row(u64::MAX, u64::MAX, u64::MAX));
    assert_eq!(bed::check_record(&bed, &rows), Ok(()));
    assert!(bed::write(&bed, names, &rows, ROOM).is_ok());
}
