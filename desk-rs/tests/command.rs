//! The command on the sample files and on odd input: its output and its status.

mod common;

use std::io::Write;

use common::{piped, run, run_on, Folder, Ran};

#[test]
fn good_files_are_accepted() {
    let ran = run(&["check", "examples/exons.bed", "examples/a.chain"]);
    assert_eq!(
        ran.out,
        "examples/exons.bed: 4 BED lines accepted, 0 refused, 2 passed over (#, track or browser)\n\
         examples/a.chain: 1 chain accepted, 0 refused, 1 passed over (#, track or browser)\n"
    );
    assert_eq!((ran.errors.as_str(), ran.status), ("", Some(0)));
}

#[test]
fn what_a_spreadsheet_did_is_told() {
    let ran = run(&["check", "examples/spreadsheet.bed"]);
    assert_eq!(ran.out, include_str!("spreadsheet.txt"));
    assert_eq!(ran.status, Some(1));
}

#[test]
fn a_minus_line_counted_on_the_reversed_query_is_refused() {
    let ran = run(&["check", "examples/alignments.psl"]);
    assert!(ran
        .out
        .starts_with("examples/alignments.psl:3:72: refused by 9: "));
    assert!(ran
        .out
        .ends_with("1 PSL line accepted, 1 refused, 1 passed over (#, track or browser)\n"));
    assert_eq!(ran.status, Some(1));
}

#[test]
fn standard_texts_go_to_standard_output() {
    let ran = run(&["format", "examples/exons.bed"]);
    let first = ran.out.lines().next();
    let standard = "chr22\t1000\t5000\tcloneA\t960\t+\t1000\t5000\t0\t2\t567,488,\t0,3512,";
    assert_eq!(first, Some(standard));
    assert_eq!((ran.out.lines().count(), ran.status), (4, Some(0)));
    assert!(ran
        .errors
        .starts_with("examples/exons.bed: 4 BED lines accepted"));
    let again = run_on(&["format", "--kind", "bed", "-"], ran.out.as_bytes());
    assert_eq!(again.out, ran.out);
}

#[test]
fn chains_turn_and_turn_back() {
    let turned = run(&["turn", "examples/a.chain"]);
    assert_eq!(
        turned.out,
        "chain 100 qB 80 + 47 75 tA 100 - 60 90 7\n9 1 0\n8 0 3\n10\n\n"
    );
    let back = run_on(&["turn", "-"], turned.out.as_bytes());
    assert_eq!(
        back.out,
        "chain 100 tA 100 + 10 40 qB 80 - 5 33 7\n10 3 0\n8 0 1\n9\n\n"
    );
    let two = format!("{}{}", turned.out, back.out);
    let ran = run_on(&["turn", "-"], two.as_bytes());
    assert_eq!(ran.out, format!("{}{}", back.out, turned.out));
}

#[test]
fn a_place_in_a_later_chain_has_its_line() {
    let file =
        "# two\nchain 1 t 9 + 0 1 q 9 + 0 1 1\n1\n\nchain 1 t 9 + 0 3 q 9 + 0 3 2\n# x\n1 x 0\n1\n";
    let ran = run_on(&["check", "--kind", "chain", "-"], file.as_bytes());
    assert!(
        ran.out.starts_with("standard input:7:3: refused by 4: "),
        "{}",
        ran.out
    );
    assert!(ran.out.contains("\"x\" in dt"));
    assert!(ran
        .out
        .ends_with("1 chain accepted, 1 refused, 2 passed over (#, track or browser)\n"));
}

#[test]
fn regions_are_lifted_or_told_why_not() {
    let folder = Folder::new("lift");
    let (out, unmapped) = (folder.file("out.bed"), folder.file("unmapped.bed"));
    let ran = run(&[
        "lift",
        "examples/a.chain",
        "examples/regions.bed",
        &out,
        &unmapped,
    ]);
    assert_eq!(
        folder.read("out.bed"),
        "qB\t65\t75\tfirst\t500\t-\nqB\t47\t75\twhole\t0\t.\t47\t75\t0\t2\t18,10,\t0,18,\n"
    );
    assert_eq!(
        folder.read("unmapped.bed"),
        "# keeps 4 of 7 bases\n\
         tA\t18\t25\tacross\t500\t-\n\
         # refused by 12: no pair for this position or region\n\
         tA\t20\t23\tgap\n\
         # refused by 12: no pair for this position or region\n\
         tA\t60\t70\n\
         # refused by 13: the position or region is not inside the target\n\
         tA\t90\t110\n\
         # no chain has the target tC\n\
         tC\t1\t2\n\
         # refused by 4 at column 4: a number is misspelt, or a list item is empty\n\
         tA\t1,000\t2,000\n"
    );
    let end = "lines: 9 read = 2 lifted + 6 not lifted + 1 passed over\n\
               tally: 57 bases asked, 41 kept, 16 dropped\n";
    assert!(ran.errors.ends_with(end), "{}", ran.errors);
    assert_eq!((ran.out.as_str(), ran.status), ("", Some(1)));
}

#[test]
fn a_line_in_two_chains_is_not_lifted() {
    let folder = Folder::new("two-chains");
    let chains = folder.file("two.chain");
    let two = "chain 1 t 9 + 0 5 q 9 + 0 5 3\n5\n\nchain 1 t 9 + 5 9 r 9 + 0 4 8\n4\n";
    folder.write("two.chain", two);
    let (out, unmapped) = (folder.file("out"), folder.file("unmapped"));
    let ran = run_on(
        &["lift", &chains, "-", &out, &unmapped],
        b"t 0 5\nt 4 6\nt 6 8\n",
    );
    assert_eq!(folder.read("out"), "q\t0\t5\nr\t1\t3\n");
    let told = "# it keeps bases in 2 chains, with the ids 3, 8\nt 4 6\n";
    assert_eq!(folder.read("unmapped"), told);
    assert_eq!(ran.status, Some(1));
}

#[test]
fn nothing_is_lifted_through_a_bad_chain_file() {
    let folder = Folder::new("bad-chain");
    let (out, unmapped) = (folder.file("out"), folder.file("unmapped"));
    let bad = b"chain 100 tA 100 + 10 40 qB 80 - 5 33 7\n10 3 0\n8 0 1\n10\n";
    let ran = run_on(&["lift", "-", "examples/regions.bed", &out, &unmapped], bad);
    assert!(
        ran.errors.starts_with("standard input:4:3: refused by 9: "),
        "{}",
        ran.errors
    );
    assert_eq!(ran.status, Some(1));
    assert_eq!(folder.names(), [""; 0]);
}

#[test]
fn inputs_are_never_written_over() {
    let folder = Folder::new("written-over");
    let ran = folder
        .sh("mkdir d; cp $E/a.chain .; $T lift a.chain $E/regions.bed /dev/null d/../a.chain");
    assert_eq!(ran.status, Some(2));
    assert!(ran.errors.contains("are one file; nothing is written"));
    assert_eq!(folder.sh("cmp a.chain $E/a.chain").status, Some(0));
}

#[test]
fn strands_are_converted() {
    let ran = run(&["convert", "5", "33", "80"]);
    assert_eq!((ran.out.as_str(), ran.status), ("47\t75\n", Some(0)));
    let ran = run(&["convert", "33", "5", "80"]);
    assert_eq!(
        ran.errors,
        "tenderchock: refused by 7: start, end and size disagree\n"
    );
    assert_eq!((ran.out.as_str(), ran.status), ("", Some(1)));
    assert_eq!(
        run(&["convert", "0", "1", "99999999999999999999"]).status,
        Some(1)
    );
}

#[test]
fn help_and_bad_usage() {
    let help = run(&["--help"]);
    assert!(help
        .out
        .contains("tenderchock lift CHAIN IN.bed OUT UNMAPPED"));
    assert_eq!(help.status, Some(0));
    for words in [
        &[][..],
        &["chek"],
        &["check"],
        &["check", "x.txt"],
        &["lift", "a.chain"],
    ] {
        let ran = run(words);
        assert_eq!((ran.out.as_str(), ran.status), ("", Some(2)), "{words:?}");
        assert!(ran.errors.starts_with("tenderchock: "));
    }
}

#[test]
fn files_that_cannot_be_read_are_told_and_the_others_checked() {
    let folder = Folder::new("unread.bed");
    let folder = folder.path.to_str().expect("a plain path");
    let ran = run(&["check", "examples/none.bed", folder, "examples/a.chain"]);
    assert!(ran.errors.contains("examples/none.bed: "));
    assert!(ran.errors.contains("unread.bed: "));
    assert!(ran.out.starts_with("examples/a.chain: 1 chain accepted"));
    assert_eq!(ran.status, Some(2));
    assert_eq!(
        run(&["lift", "examples/a.chain", folder, "/dev/null", "/dev/null"]).status,
        Some(2)
    );
    assert_eq!(run(&["turn", "examples/none.chain"]).status, Some(2));
}

#[test]
fn a_file_without_a_text_is_refused() {
    for kind in ["bed", "psl", "chain"] {
        for input in [&b""[..], b"# nothing\n"] {
            let ran = run_on(&["check", "--kind", kind, "-"], input);
            assert!(
                ran.out.starts_with("standard input:1:1: refused by 2: "),
                "{}",
                ran.out
            );
            assert_eq!(ran.status, Some(1));
        }
    }
}

#[test]
fn no_bytes_make_it_panic() {
    let every_byte: Vec<u8> = (0..=255).collect();
    let long = [
        b"chr1\t1\t2\t".to_vec(),
        vec![b'x'; 300_000],
        b"\nchr1 1 2".to_vec(),
    ]
    .concat();
    let chain = b"chain 1 t 9 + 0 1 q 9 + 0 1 1\r\n1\r\n\r\n".repeat(3);
    let inputs = [
        &every_byte[..],
        &long,
        &chain,
        b"\0",
        b"\xFF\xFE\0",
        b"\n\n",
        b"\r",
        b",\t,\n\"",
        b"\t",
    ];
    for input in inputs {
        for kind in ["bed", "psl", "chain"] {
            for command in ["check", "format"] {
                let ran = run_on(&[command, "--kind", kind, "-"], input);
                assert_eq!(ran.status, Some(1));
            }
        }
        assert_eq!(run_on(&["turn", "-"], input).status, Some(1));
        let lift = ["lift", "examples/a.chain", "-", "/dev/null", "/dev/null"];
        assert_eq!(run_on(&lift, input).status, Some(1));
    }
    let ran = run_on(&["check", "--kind", "bed", "-"], &long);
    assert!(ran
        .out
        .starts_with("standard input:1:1: refused by 1: the text is over 65,536 bytes\n"));
    assert!(ran.out.ends_with("1 BED line accepted, 1 refused\n"));
}

#[test]
fn a_reader_that_goes_away_makes_no_noise() {
    let many = b"chr1 x 2\n".repeat(20_000);
    let mut child = piped(&["check", "--kind", "bed", "-"]);
    drop(child.stdout.take());
    let _ = child.stdin.take().map(|mut stdin| stdin.write_all(&many));
    let ran = Ran::of(child.wait_with_output().expect("the command ends"));
    assert_eq!((ran.errors.as_str(), ran.status), ("", Some(2)));
}
