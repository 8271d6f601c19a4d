//! The samples command, case by case.

use std::fs;
use std::io::Write;
use std::path::Path;
use std::process::{Command, Stdio};

/// Runs the command on an input and answers its output.
fn run(input: &[u8]) -> Vec<u8> {
    let mut child = Command::new(env!("CARGO_BIN_EXE_samples"))
        .stdin(Stdio::piped())
        .stdout(Stdio::piped())
        .spawn()
        .unwrap();
    child.stdin.take().unwrap().write_all(input).unwrap();
    child.wait_with_output().unwrap().stdout
}

/// Runs pairs of a case and its answer.
fn cases(pairs: &[(&str, &str)]) {
    let input: String = pairs.iter().map(|(case, _)| format!("{case}\n")).collect();
    let output = String::from_utf8(run(input.as_bytes())).unwrap();
    let answers: Vec<&str> = output.lines().collect();
    assert_eq!(answers.len(), pairs.len());
    for ((case, expected), answer) in pairs.iter().zip(answers) {
        assert_eq!(answer, *expected, "for {case}");
    }
}

#[test]
fn comments_answer_nothing() {
    assert_eq!(run(b""), b"");
    assert_eq!(run(b"# a comment\n\nc 5\n#c 6"), b"c value 5\n");
}

#[test]
fn texts_lines_and_words() {
    cases(&[
        ("t", "t fine"),
        ("t ", "t fine"),
        (r"t a\tb\n", "t fine"),
        (r"t ab\x1f", "t refused 3 at 2"),
        (r"t a\x0d", "t refused 3 at 1"),
        (r"l a\s\tbb\n\n", "l 0-5: 0-1 3-5 | 6-6:"),
        (r"l \n", "l 0-0:"),
        (r"l \\", "l 0-1: 0-1"),
        ("l", "l none"),
    ]);
}

#[test]
fn numbers() {
    cases(&[
        ("c 2147483647", "c value 2147483647"),
        ("c 2147483648", "c refused 5 at 0"),
        ("c 007", "c refused 4 at 0"),
        ("c", "c refused 4 at 0"),
        (r"c 5\s", "c refused 4 at 0"),
        ("z 0", "z refused 5 at 0"),
        ("s 999999999999999999", "s value 999999999999999999"),
        ("s 1000000000000000000", "s refused 5 at 0"),
        ("i 4294967295", "i value 4294967295"),
        ("i 4294967296", "i refused 5 at 0"),
        ("e 1000", "e value 1000"),
        ("e 1001", "e refused 5 at 0"),
        ("b 512", "b value 512"),
        ("b 513", "b refused 5 at 0"),
        ("U 18446744073709551615", "U value 18446744073709551615"),
        ("U 18446744073709551616", "U refused 5 at 0"),
        ("U 007", "U refused 4 at 0"),
        ("U", "U refused 4 at 0"),
        (
            "d 18446744073709551615",
            "d digits 18446744073709551615 list 18446744073709551615,",
        ),
        ("d 0", "d digits 0 list 0,"),
    ]);
}

#[test]
fn lists_and_colours() {
    cases(&[
        ("L 567,488,", "L count 2: 567 488"),
        ("L 567,488", "L count 2: 567 488"),
        ("L 5,,", "L refused 4 at 2"),
        ("L ,", "L refused 4 at 0"),
        ("Z 1,0", "Z refused 5 at 2"),
        ("2 1,2,", "2 count 2: 1 2"),
        ("2 1,2,3", "2 refused 8 at 0"),
        ("r 0", "r colour 0 0 0"),
        ("r 1,2,3,", "r refused 4 at 6"),
        ("r 1,2,3,256", "r refused 5 at 6"),
    ]);
}

#[test]
fn texts_of_numbers() {
    let of = |count: usize| vec!["7"; count].join(" ");
    cases(&[
        ("N", "N count 0:"),
        (r"N \n", "N count 0:"),
        (r"N \s567\t\t488\n", "N count 2: 567 488"),
        ("N 567,488", "N refused 4 at 0"),
        ("N 1 1000000000000000000", "N refused 5 at 2"),
        (r"N 1\n2", "N refused 2 at 2"),
        (r"N x\x00", "N refused 3 at 1"),
        (&format!("N {}", of(32)), &format!("N count 32: {}", of(32))),
        (&format!("N {}", of(33)), "N refused 11 at 65"),
        (&format!(r"N {}\n\n", of(33)), "N refused 2 at 66"),
    ]);
}

#[test]
fn names_strands_and_fixed_words() {
    cases(&[
        ("n chr22", "n name 5"),
        ("n", "n refused 6 at 0"),
        ("+ -", "+ strand -"),
        ("+ .", "+ refused 6 at 0"),
        (". .", ". strand ."),
        ("k chain", "k chain"),
        ("k Chain", "k refused 6 at 0"),
        ("? x", "? unknown case"),
        ("c5", "c unknown case"),
    ]);
}

#[test]
fn lines_by_their_columns() {
    cases(&[
        (
            "B chr22 1000 5000 cloneA 960 + 1000 5000 0 2 567,488, 0,3512",
            r"B chr22\t1000\t5000\tcloneA\t960\t+\t1000\t5000\t0\t2\t567,488,\t0,3512,",
        ),
        ("B c 5 9", "B refused 6 at 5"),
        (r"B c 5\s", "B refused 4 at 4"),
        (
            "B c 9 5 n 0 + 1 0 0,0,0 1 7 7 x",
            r"B c\t9\t5\tn\t0\t+\t1\t0\t0\t1\t7,\t7,",
        ),
        ("B c 5 9 n 0 + 5 9 0 1 4,4 x", "B refused 8 at 20"),
        (
            "P 27 0 0 0 1 1 1 3 - qB 80 5 33 tA 100 10 40 3 10,8,9 5,15,24 10,23,31",
            r"P 27\t0\t0\t0\t1\t1\t1\t3\t-\tqB\t80\t5\t33\ttA\t100\t10\t40\t3\t10,8,9,\t5,15,24,\t10,23,31,",
        ),
        ("P", "P refused 4 at 0"),
        (
            r"C chain\t100 tA 100 + 10 40 qB 80 - 5 33 7",
            "C chain 100 tA 100 + 10 40 qB 80 - 5 33 7",
        ),
        (
            "C chain 100 tA 100 - 10 40 qB 80 - 5 33 7",
            "C refused 6 at 17",
        ),
        ("C", "C refused 6 at 0"),
    ]);
}

#[test]
fn repeated_bytes() {
    cases(&[
        (r"t \*65536a", "t fine"),
        (r"t \*65537a", "t refused 1 at 0"),
        (r"l a\*00003 b", "l 0-5: 0-1 4-5"),
        (r"l \*00000ab", "l 0-1: 0-1"),
        (r"l \*0003 b", "l 0-8: 0-6 7-8"),
        (r"l \*00002", "l 0-7: 0-7"),
    ]);
}

#[test]
fn bed_lines_accepted() {
    cases(&[
        (
            "D chr22 1000 5000 cloneA 960 + 1000 5000 0 2 567,488, 0,3512",
            r"D bed 12 0+5 1000 5000 16+6 960 + 1000 5000 0 2 rows 1000,0,567 4512,567,488 text chr22\t1000\t5000\tcloneA\t960\t+\t1000\t5000\t0\t2\t567,488,\t0,3512,\n check ok checker bed 12 0+5 1000 5000 16+6 960 + 1000 5000 0 2",
        ),
        (
            r"E c\t1 9 n 0 - 4 5 1,2,3\n",
            r"E bed 9 0+1 1 9 6+1 0 - 4 5 66051 1 rows 1,0,8 text c\t1\t9\tn\t0\t-\t4\t5\t1,2,3\n check ok",
        ),
        (
            r"D c 1 2\n",
            r"D bed 3 0+1 1 2 6+0 0 . 1 2 0 1 rows 1,0,1 text c\t1\t2\n check ok checker bed 3 0+1 1 2 6+0 0 . 1 2 0 1",
        ),
    ]);
}

#[test]
fn bed_lines_refused() {
    cases(&[
        (
            "D chr22 1000 4999 cloneA 960 + 1000 4999 0 2 567,488, 0,3512",
            "D refused 9 at 58 checker refused 9 at 58",
        ),
        (
            "E chr22 1000 5000 cloneA 960 + 1000 5000 0 2 567,488, 0,3512",
            "E refused 11 at 58",
        ),
        (
            r"D c 1 2\*65532 ",
            "D refused 1 at 0 checker refused 1 at 0",
        ),
        (r"D c 1 x\nc", "D refused 4 at 4 checker refused 4 at 4"),
        (r"D c 2 1\nc", "D refused 2 at 6 checker refused 2 at 6"),
        (r"D c 1 2\n\n", "D refused 2 at 6 checker refused 2 at 6"),
        (r"D c 1 2\n\s\s", "D refused 2 at 8 checker refused 2 at 8"),
        (
            "D c 1 9 n 0 + 10",
            "D refused 7 at 12 checker refused 7 at 12",
        ),
        (
            "D c 1 9 n 0 + 1 10",
            "D refused 7 at 14 checker refused 7 at 14",
        ),
    ]);
}

#[test]
fn bed_records() {
    cases(&[
        (
            "W 12 1000 5000 960 + 1000 5000 255 2 66 =chr22 =cloneA 1000,0,567 4512,567,488",
            r"W check ok write chr22\t1000\t5000\tcloneA\t960\t+\t1000\t5000\t0,0,255\t2\t567,488,\t0,3512,\n",
        ),
        (
            "W 3 1 2 0 . 1 2 0 1 6 =c = 1,0,1",
            r"W check ok write c\t1\t2\n",
        ),
        (
            "W 3 1 2 0 . 1 2 0 1 5 =c = 1,0,1",
            "W check ok write refused 11 at 0",
        ),
        (
            r"W 4 1 2 0 . 1 2 0 1 9 =c =a\sb 1,0,1",
            "W check ok write refused 6 at 0",
        ),
        (
            "W 3 1 2 5 . 1 2 0 1 9 =c = 1,0,1",
            "W check refused 9 at 0 write refused 5 at 0",
        ),
        (
            "W 3 2 2 0 . 2 2 0 1 9 =c = 2,0,1",
            "W check refused 9 at 0 write refused 7 at 0",
        ),
        (
            "W 3 1 2 0 . 1 2 0 2 9 =c = 1,0,1",
            "W check refused 9 at 0 write refused 9 at 0",
        ),
    ]);
}

#[test]
fn psl_lines_and_records() {
    let line = "27 0 0 0 1 1 1 3 - qB 80 47 75 tA 100 10 40 3 10,8,9, 5,15,24, 10,23,31,";
    let columns = "psl 27 0 0 0 1 1 1 3 - 19+2 80 47 75 31+2 100 10 40 3";
    let written = line.replace(' ', r"\t");
    let record = "27 0 0 0 1 1 1 3 - 80 47 75 100 10 40 3";
    let rows = "10,5,10 23,15,8 31,24,9";
    cases(&[
        (
            &format!("F {line}"),
            &format!(r"F {columns} rows {rows} text {written}\n check ok checker {columns}"),
        ),
        (
            &format!("F {}", line.replace("47 75", "5 33")),
            "F refused 9 at 71 checker refused 9 at 71",
        ),
        (&format!("G {line}"), "G refused 11 at 72"),
        (
            &format!("X {record} 73 =qB =tA {rows}"),
            &format!(r"X check ok write {written}\n"),
        ),
        (
            &format!("X {record} 72 =qB =tA {rows}"),
            "X check ok write refused 11 at 0",
        ),
        (
            &format!("X {record} 73 =qB = {rows}"),
            "X check refused 9 at 0 write refused 6 at 0",
        ),
    ]);
}

#[test]
fn chains_and_records() {
    let text = r"chain 100 tA 100 + 10 40 qB 80 - 5 33 7\n10 3 0\n8 0 1\n9\n";
    let columns = "chain 100 10+2 100 10 40 25+2 80 - 5 33 7 3";
    let record = "100 100 10 40 80 - 5 33 7 3";
    let rows = "10,5,10 23,15,8 31,24,9";
    cases(&[
        (
            &format!("H {text}"),
            &format!("H {columns} rows {rows} text {text} check ok checker {columns}"),
        ),
        (
            &format!("H {}", text.replace(r"\n9", r"\n10")),
            "H refused 9 at 56 checker refused 9 at 56",
        ),
        (&format!("I {text}"), "I refused 11 at 55"),
        (
            &format!("Y {record} 55 =tA =qB {rows}"),
            &format!("Y check ok write {text}"),
        ),
        (
            &format!("Y {record} 54 =tA =qB {rows}"),
            "Y check ok write refused 11 at 0",
        ),
        (
            &format!("Y {record} 55 =tA =qB 10,5,10 23,15,8 31,24,10"),
            "Y check refused 9 at 0 write refused 9 at 0",
        ),
    ]);
}

#[test]
fn lifts_and_conversions() {
    let text = r"chain 100 tA 100 + 10 40 qB 80 - 5 33 7\n10 3 0\n8 0 1\n9\n";
    let turned = r"chain 100 qB 80 + 47 75 tA 100 - 60 90 7\n9 1 0\n8 0 3\n10\n";
    let record = "100 100 10 40 80 - 5 33 7 3 =tA =qB 10,5,10 23,15,8 31,24,9";
    cases(&[
        (&format!("p 10 {text}"), "p lifted 74 drift 64"),
        (&format!("p 74 {turned}"), "p lifted 10 drift -64"),
        (&format!("p 20 {record}"), "p refused 12 at 0"),
        (&format!("p 100 {record}"), "p refused 13 at 0"),
        (
            &format!("p 10 {}", record.replace("7 3", "7 4")),
            "p refused 9 at 0",
        ),
        (
            &format!("p 10 {}", text.replace(r"\n9", r"\n10")),
            "p text refused 9 at 56",
        ),
        (&format!("g 18 25 {text}"), "g kept 4 dropped 3 query 63 67"),
        (&format!("g 20 20 {record}"), "g refused 13 at 0"),
        ("v 5 33 80", "v span 47 75"),
        ("v 5 2147483648 80", "v refused 5 at 0"),
        ("v 5 5 80", "v refused 7 at 0"),
    ]);
}

#[test]
fn turns_and_tallies() {
    let text = r"chain 100 tA 100 + 10 40 qB 80 - 5 33 7\n10 3 0\n8 0 1\n9\n";
    let turned = r"chain 100 qB 80 + 47 75 tA 100 - 60 90 7\n9 1 0\n8 0 3\n10\n";
    let record = "100 100 10 40 80 - 5 33 7 3 =tA =qB 10,5,10 23,15,8 31,24,9";
    let numbers = |t_place: u64, q_place: u64| {
        format!(
            "100 {t_place}+2 80 47 75 {q_place}+2 100 60 90 - 7 3 rows 47,60,9 57,69,8 65,80,10"
        )
    };
    cases(&[
        (
            &format!("u 3 {text}"),
            &format!("u turned {} text {turned} check ok", numbers(25, 10)),
        ),
        (
            &format!("u 3 {record}"),
            &format!("u turned {} text {turned} check ok", numbers(2, 0)),
        ),
        (&format!("u 2 {text}"), "u refused 11 at 0"),
        (
            &format!("m 18 25 {text}"),
            "m kept 4 dropped 3 query 63 67 tally 7 4 3",
        ),
        (
            &format!("m 20 23 {record}"),
            "m refused 12 at 0 tally 10 4 6",
        ),
        (
            &format!("a 1 1 1 18 25 {text}"),
            "a refused 10 at 0 tally 1 1 1",
        ),
        (&format!("m 20 20 {text}"), "m refused 13 at 0 tally 1 1 1"),
        (
            &format!("a 9223372036854775807 0 9223372036854775807 20 23 {text}"),
            "a refused 5 at 0 tally 9223372036854775807 0 9223372036854775807",
        ),
    ]);
}

#[test]
fn batches() {
    let text = r"chain 100 tA 100 + 10 40 qB 80 - 5 33 7\n10 3 0\n8 0 1\n9\n";
    let record = "100 100 10 40 80 - 5 33 7 3 =tA =qB 10,5,10 23,15,8 31,24,9";
    let bad = record.replace("7 3", "7 4");
    let regions = "4 18 25 20 23 20 20 0 101";
    let full = "9223372036854775807 0 9223372036854775807";
    let rows = "| 0 4 3 63 67 | 12 0 0 0 0 | 13 0 0 0 0 | 13 0 0 0 0";
    cases(&[
        (
            &format!("R 4 {regions} {text}"),
            &format!("R ok {rows} tally 10 4 6"),
        ),
        (
            &format!("R 5 {regions} {record}"),
            &format!("R ok {rows} tally 20 8 12"),
        ),
        (
            &format!("R 3 {regions} {bad}"),
            "R refused 11 at 0 tally 20 8 12",
        ),
        (
            &format!("R 9 2 18 25 20 20 {bad}"),
            "R ok | 9 0 0 0 0 | 9 0 0 0 0 tally 20 8 12",
        ),
        (
            &format!("a 1 1 1 20 20 {text}"),
            "a refused 13 at 0 tally 1 1 1",
        ),
        (
            &format!("R 2 2 20 23 20 20 {text}"),
            "R ok | 10 0 0 0 0 | 13 0 0 0 0 tally 1 1 1",
        ),
        (&format!("R 0 0 {bad}"), "R ok tally 1 1 1"),
        (
            &format!("a {full} 20 20 {text}"),
            &format!("a refused 13 at 0 tally {full}"),
        ),
        (
            &format!("R 1 1 18 25 {text}"),
            &format!("R ok | 5 0 0 0 0 tally {full}"),
        ),
        (
            &format!("R 1 1 18 25 {}", text.replace(r"\n9", r"\n10")),
            "R text refused 9 at 56",
        ),
    ]);
}

/// Every program that runs the library has its cases in `stdin`, and in `stdout` the answers of
/// this command.
#[test]
fn answers_of_the_sample_programs() {
    let crates = Path::new(env!("CARGO_MANIFEST_DIR")).join("../crates");
    let mut programs = 0;
    for entry in fs::read_dir(crates).unwrap() {
        let program = entry.unwrap().path();
        let name = program.file_name().unwrap().to_str().unwrap().to_string();
        if name.starts_with("samples") {
            let expected = fs::read(program.join("stdout")).unwrap();
            let answers = run(&fs::read(program.join("stdin")).unwrap());
            assert!(
                answers == expected,
                "{name}: stdout is not what the command answers"
            );
            programs += 1;
        }
    }
    assert!(programs > 0);
}
