//! What once went wrong on real files, each as a test: exons, lines and whole files that
//! were lost while the status was 0.

mod common;

use common::Folder;

/// An exon in a gap is told; the line isn't lifted without it.
#[test]
fn a_middle_exon_in_a_gap_is_told() {
    let folder = Folder::new("exon-in-gap");
    let chain = "chain 1 chr1 10000 + 0 10000 chrQ 9000 + 0 9000 1\n2500 1000 0\n6500\n";
    let line = "chr1\t1000\t5000\ttx\t0\t+\t1000\t5000\t0\t3\t200,300,500,\t0,1600,3500,\n";
    folder.write("g.chain", chain);
    folder.write("tx.bed", line);
    let ran = folder.sh("$T lift g.chain tx.bed o u");
    assert_eq!((folder.read("o").as_str(), ran.status), ("", Some(1)));
    assert_eq!(
        folder.read("u"),
        format!("# block 2 of 3 (2600-2900): no pair\n{line}")
    );

    let ran = folder.sh("$T lift --drop-blocks g.chain tx.bed o u");
    assert_eq!(
        folder.read("o"),
        "chrQ\t1000\t4000\ttx\t0\t+\t1000\t4000\t0\t2\t200,500,\t0,2500,\n"
    );
    let without = "lifted without block 2 of 3 (2600-2900): no pair\n";
    assert_eq!(folder.read("u"), format!("# line 1 is {without}"));
    assert!(ran.errors.contains(&format!("tx.bed:1:1: note: {without}")));
    assert_eq!(ran.status, Some(1));

    let ran = folder.sh("$T lift --span --min-kept 0.5 g.chain tx.bed o u");
    assert_eq!(folder.read("o"), "chrQ\t1000\t4000\ttx\t0\t+\n");
    assert_eq!(folder.read("u"), format!("# line 1 is {without}"));
    assert_eq!(ran.status, Some(1));
}

/// A line that keeps one base of 89,961 isn't lifted, nor one that grows to 1.5 Gb.
#[test]
fn a_line_keeps_its_bases_and_its_length() {
    let folder = Folder::new("kept-and-grown");
    folder.write(
        "l.chain",
        "chain 100 tA 100000 + 10 40 qB 80 - 5 33 7\n10 3 0\n8 0 1\n9\n",
    );
    folder.write("l.bed", "tA\t39\t90000\tpanel\t0\t+\n");
    let ran = folder.sh("$T lift l.chain l.bed o u");
    assert_eq!((folder.read("o").as_str(), ran.status), ("", Some(1)));
    assert_eq!(
        folder.read("u"),
        "# keeps 1 of 89961 bases\ntA\t39\t90000\tpanel\t0\t+\n"
    );
    folder.write(
        "i.chain",
        "chain 1 t 10 + 0 10 q 2000000000 + 0 1500000010 1\n5 0 1500000000\n5\n",
    );
    folder.write("i.bed", "t\t0\t10\n");
    let ran = folder.sh("$T lift i.chain i.bed o u");
    assert_eq!((folder.read("o").as_str(), ran.status), ("", Some(1)));
    assert_eq!(
        folder.read("u"),
        "# its query region has 1500000010 bases, and 10 were asked\nt\t0\t10\n"
    );
    let ran = folder.sh("$T lift --max-grow 150000001 i.chain i.bed o u");
    assert_eq!(
        (folder.read("o").as_str(), ran.status),
        ("q\t0\t1500000010\n", Some(0))
    );
}

/// An input is no output, by whatever name; `faults.rs` has more ways.
#[test]
fn no_input_is_destroyed() {
    for script in [
        "$T lift $E/a.chain r.bed h.bed u",
        "$T lift $E/a.chain - r.bed u < r.bed",
        "$T lift - $E/regions.bed c.chain u < c.chain",
    ] {
        let folder = Folder::new("no-input-destroyed");
        folder.sh("cp $E/regions.bed r.bed; cp $E/a.chain c.chain; ln r.bed h.bed");
        let ran = folder.sh(script);
        let same = folder.sh("cmp r.bed $E/regions.bed && cmp c.chain $E/a.chain");
        assert_eq!(
            (same.status, ran.status),
            (Some(0), Some(2)),
            "{script}: {}",
            same.out
        );
    }
}

/// An output is whole, or as it was.
#[test]
fn no_output_is_half_written() {
    let folder = Folder::new("half-written");
    folder.write(
        "s.chain",
        "chain 1 chr1 200000000 + 0 200000000 chrQ 200000000 + 0 200000000 1\n200000000\n",
    );
    let line = |at: u32| format!("chr1\t{}\t{}\n", at % 9 + 1, 100_000_000 + at);
    folder.write("s.bed", (0..60_000).map(line).collect::<String>());
    let ran = folder.sh("trap '' XFSZ; ulimit -f 144; $T lift s.chain s.bed o u");
    assert_eq!(ran.status, Some(2));
    assert!(ran.errors.contains("tenderchock: o: "), "{}", ran.errors);
    assert_eq!(folder.names(), ["s.bed", "s.chain"]);
    folder.write("o", "good\n");
    folder.write("u", "good too\n");
    let ran = folder.sh("trap '' XFSZ; ulimit -f 144; $T lift s.chain s.bed o u");
    assert_eq!(ran.status, Some(2));
    assert_eq!(
        (folder.read("o"), folder.read("u")),
        ("good\n".into(), "good too\n".into())
    );
    assert!(folder.is_clean());
    let ran = folder.sh("ulimit -f 144; $T lift s.chain s.bed o u; exit 9");
    assert_eq!(ran.status, Some(9));
    assert_eq!(folder.read("o"), "good\n");
}

/// OUT and UNMAPPED are not one new file.
#[test]
fn two_outputs_are_not_one_new_file() {
    let folder = Folder::new("one-new-file");
    folder.sh("mkdir d; ln -s d e; ln -s d/new link; ln -s nowhere dangling");
    for (out, unmapped) in [
        ("new", "./new"),
        ("d/new", "e/new"),
        ("d/new", "link"),
        ("d/../new", "new"),
        ("dangling", "nowhere"),
    ] {
        let ran = folder.sh(&format!(
            "$T lift $E/a.chain $E/regions.bed {out} {unmapped}"
        ));
        assert_eq!(ran.status, Some(2), "{out} {unmapped}");
        assert!(ran.errors.contains("are one file"), "{}", ran.errors);
        assert_eq!(folder.names(), ["d", "dangling", "e", "link"]);
    }
}

/// A run that can't succeed empties nothing.
#[test]
fn what_cannot_succeed_touches_nothing() {
    let folder = Folder::new("cannot-succeed");
    folder.write("o", "precious\n");
    for script in [
        "$T lift $E/a.chain $E/regions.bed o nodir/u",
        "$T lift $E/a.chain $E o u",
        "$T lift $E $E/regions.bed o u",
        "$T lift $E/a.chain none.bed o u",
        "$T lift $E/a.chain $E/regions.bed o .",
        "$T lift $E/a.chain $E/regions.bed o u/",
        "$T lift --summary nodir/s $E/a.chain $E/regions.bed o u",
        "$T format $E/exons.bed none.bed --out o",
    ] {
        let ran = folder.sh(script);
        assert_eq!(
            (ran.status, folder.read("o").as_str()),
            (Some(2), "precious\n"),
            "{script}"
        );
        assert_eq!(folder.names(), ["o"], "{script}");
    }
    let ran = folder.sh("$T lift $E/a.chain $E/regions.bed o nodir/u");
    assert!(ran
        .errors
        .contains("nodir/u: no file can be made in the folder nodir: "));
}

/// A spreadsheet's error is no comment, nor is a file of lone carriage returns.
#[test]
fn no_line_is_lost_as_a_comment() {
    let folder = Folder::new("lost-as-comment");
    for word in [
        "#N/A", "#REF!", "#NAME?", "#VALUE!", "#DIV/0!", "#NUM!", "#NULL!",
    ] {
        folder.write("a.bed", format!("chr1\t1\t2\n{word}\t10\t20\n"));
        let ran = folder.sh("$T check a.bed");
        let start = "a.bed:2:1: refused by 6: ";
        assert!(
            ran.out.starts_with(start) && ran.status == Some(1),
            "{}",
            ran.out
        );
    }
    folder.write("a.bed", "# x\rchr1\t1\t2\rchr1\t3\t4\r");
    let ran = folder.sh("$T check a.bed");
    assert!(
        ran.out.starts_with("a.bed:1:4: refused by 3: "),
        "{}",
        ran.out
    );
    assert_eq!(ran.status, Some(1));
    folder.write("a.bed", "#chr1\t10\t20\nchr1\t1\t2\n");
    let ran = folder.sh("$T check a.bed");
    assert!(ran.out.starts_with("a.bed:1:1: note: "), "{}", ran.out);
    assert_eq!(ran.status, Some(0));
}

/// A header begins a chain, with or without a blank line before it.
#[test]
fn chains_need_no_blank_lines() {
    let folder = Folder::new("no-blank-lines");
    let chain = |id: u32| format!("chain 1 t 9 + 0 1 q 9 + 0 1 {id}\n1\n");
    folder.write("a.chain", (0..20).map(chain).collect::<String>());
    let ran = folder.sh("$T check a.chain");
    assert_eq!(
        (ran.out.as_str(), ran.status),
        ("a.chain: 20 chains accepted, 0 refused\n", Some(0))
    );
}

/// An empty cell is told.
#[test]
fn an_empty_cell_is_told() {
    let folder = Folder::new("empty-cell");
    folder.write("a.bed", "chr1\t10\t20\t\t960\nchr1\t10\t20\tgene 7\n");
    let ran = folder.sh("$T check a.bed");
    assert_eq!(ran.status, Some(0));
    assert!(
        ran.out.starts_with("a.bed:1:12: note: an empty cell"),
        "{}",
        ran.out
    );
    assert!(
        ran.out
            .contains("\na.bed:2:16: note: a blank inside a cell"),
        "{}",
        ran.out
    );
    assert_eq!(folder.sh("$T check --strict a.bed").status, Some(1));
    folder.write("a.bed", "chr1\t10\t20\t \t960\n");
    let ran = folder.sh("$T check a.bed");
    assert!(
        ran.out.starts_with("a.bed:1:12: note: an empty cell"),
        "{}",
        ran.out
    );
}

/// A blank line ends each chain, and block lines have tabs where they are wanted.
#[test]
fn other_readers_can_read_what_is_written() {
    let folder = Folder::new("other-readers");
    let ran = folder.sh("$T turn $E/a.chain");
    assert!(ran.out.ends_with("\n10\n\n"), "{}", ran.out);
    let ran = folder.sh("$T turn --tabs $E/a.chain");
    let turned = "chain 100 qB 80 + 47 75 tA 100 - 60 90 7\n9\t1\t0\n8\t0\t3\n10\n\n";
    assert_eq!(ran.out, turned);
    folder.write("t.chain", turned);
    let plain = folder.sh("$T format t.chain");
    assert_eq!(plain.out, turned.replace('\t', " "));
    let back = folder.sh("$T format --tabs t.chain");
    assert_eq!(back.out, turned);
}

/// Like refusals are told in part, and a compressed file is unpacked.
#[test]
fn like_refusals_are_no_flood() {
    let folder = Folder::new("no-flood");
    folder.write("w.bed", "chr1\t1\t2\r\n".repeat(100_000));
    let ran = folder.sh("$T check w.bed");
    assert!(ran.out.len() < 5_000 && ran.status == Some(1));
    assert_eq!(ran.out.lines().count(), 22);
    assert!(ran.out.ends_with(
        "w.bed: 99980 more refused by 3, the last in line 100000; --all shows them\n\
         w.bed: 0 BED lines accepted, 100000 refused\n"
    ));
    let ran = folder.sh("$T check --all w.bed");
    assert_eq!(ran.out.lines().count(), 100_001);
    let ran = folder.sh("gzip -c $E/exons.bed > x.bed.gz; $T check x.bed.gz");
    assert_eq!(ran.status, Some(0), "{}", ran.out);
}

/// With a refused text no file is written; `turn` writes nothing at all.
#[test]
fn nothing_is_dropped_from_what_is_written() {
    let folder = Folder::new("nothing-dropped");
    folder.write(
        "bad.chain",
        "chain 1 t 9 + 0 1 q 9 + 0 1 1\n1\n\nchain 1 x\n1\n",
    );
    let ran = folder.sh("$T turn bad.chain");
    assert_eq!((ran.out.as_str(), ran.status), ("", Some(1)));
    let ran = folder.sh("$T turn --keep-going bad.chain");
    assert_eq!(ran.out, "chain 1 q 9 + 0 1 t 9 + 0 1 1\n1\n\n");
    assert_eq!(ran.status, Some(1));
    for command in ["turn", "format"] {
        let ran = folder.sh(&format!("$T {command} --out new bad.chain"));
        assert_eq!((ran.out.as_str(), ran.status), ("", Some(1)));
        assert!(!folder.has("new") && folder.is_clean());
    }
    let ran = folder.sh("$T turn --keep-going --out new bad.chain");
    assert_eq!(ran.status, Some(1));
    assert_eq!(folder.read("new"), "chain 1 q 9 + 0 1 t 9 + 0 1 1\n1\n\n");
    let ran = folder.sh("cp $E/exons.bed a.bed; $T format a.bed >> a.bed");
    assert_eq!(ran.status, Some(2));
    let ran = folder.sh("cmp a.bed $E/exons.bed && $T format --out b.bed a.bed && $T format b.bed");
    assert_eq!((ran.out, ran.status), (folder.read("b.bed"), Some(0)));
}

/// Standard output is never truncated, and can be OUT.
#[test]
fn standard_output_is_appended_to() {
    let folder = Folder::new("standard-output");
    let lifted = folder.sh("$T lift $E/a.chain $E/regions.bed - u");
    assert!(
        lifted.out.starts_with("qB\t65\t75\tfirst"),
        "{}",
        lifted.errors
    );
    assert_eq!(lifted.status, Some(1));
    for (out, to) in [
        ("/dev/stdout", ">>"),
        ("-", ">>"),
        ("/dev/fd/3", "3>>"),
        ("./log", ">>"),
    ] {
        folder.write("log", "first\n");
        let ran = folder.sh(&format!(
            "$T lift $E/a.chain $E/regions.bed {out} u {to} log"
        ));
        assert_eq!(ran.status, Some(1), "{}", ran.errors);
        assert_eq!(
            folder.read("log"),
            format!("first\n{}", lifted.out),
            "{out}"
        );
    }
    for unmapped in ["-", "/dev/stdout"] {
        let ran = folder.sh(&format!(
            "$T lift $E/a.chain $E/regions.bed o {unmapped} | cat"
        ));
        assert_eq!(ran.out, "", "{}", ran.errors);
    }
}
