//! Compressed files, files that are no text, and how much is told.

mod common;

use std::io::Write;
use std::thread;
use std::time::{Duration, Instant};

use common::{piped, run, run_on, Folder, Ran};

#[test]
fn compressed_files_are_unpacked() {
    let folder = Folder::new("gz");
    let plain = folder
        .sh("$T check $E/exons.bed | sed 's/^.*exons.bed//'")
        .out;
    folder.sh("gzip -c $E/exons.bed > exons.bed.gz; cp exons.bed.gz plain.bed; gzip -c $E/a.chain > a.chain.gz");
    for (script, name) in [
        ("$T check exons.bed.gz", "exons.bed.gz"),
        ("$T check plain.bed", "plain.bed"),
        ("$T check --kind bed - < exons.bed.gz", "standard input"),
        ("cat exons.bed.gz | $T check --kind bed -", "standard input"),
        (
            "cat exons.bed.gz exons.bed.gz > two.bed.gz; $T check exons.bed.gz",
            "exons.bed.gz",
        ),
    ] {
        let ran = folder.sh(script);
        assert_eq!(
            (ran.out, ran.status),
            (format!("{name}{plain}"), Some(0)),
            "{script}"
        );
    }
    let ran = folder.sh("$T lift a.chain.gz $E/regions.bed o u; $T lift $E/a.chain $E/regions.bed p v; cmp o p && cmp u v");
    assert_eq!(ran.status, Some(0), "{}", ran.errors);
}

#[test]
fn a_large_compressed_file_can_be_fed_and_left() {
    let folder = Folder::new("gz-large");
    folder.write("a.bed", "chr1\t1\t2\tname\n".repeat(200_000));
    folder.sh("gzip a.bed");
    let ran = folder.sh("cat a.bed.gz | $T format --kind bed - | wc -l");
    assert_eq!(ran.out.trim(), "200000");
    let ran = folder.sh("cat a.bed.gz | $T format --quiet --kind bed - | head -n 1");
    assert_eq!(
        (ran.out.as_str(), ran.errors.as_str()),
        ("chr1\t1\t2\tname\n", "")
    );
}

#[test]
fn a_damaged_compressed_file_gives_no_output() {
    let folder = Folder::new("gz-bad");
    folder.write("a.bed", "tA\t10\t20\n".repeat(50_000));
    folder.sh("gzip a.bed; head -c 150 a.bed.gz > cut.bed.gz; (head -c 100 a.bed.gz; printf x; tail -c +102 a.bed.gz) > bad.bed.gz; (cat a.bed.gz; echo x) > more.bed.gz; printf '\\037\\213' > only.bed.gz; echo old > o");
    for name in ["cut", "bad", "more", "only"] {
        for script in [
            format!("$T lift $E/a.chain {name}.bed.gz o u"),
            format!("$T lift $E/a.chain - o u < {name}.bed.gz"),
            format!("cat {name}.bed.gz | $T format --kind bed --out o -"),
            format!("$T format --keep-going --out o {name}.bed.gz"),
            format!("$T check {name}.bed.gz"),
        ] {
            let ran = folder.sh(&script);
            assert_eq!(ran.status, Some(2), "{script}: {}", ran.errors);
            assert!(
                ran.errors
                    .contains("it is compressed and can't be unpacked"),
                "{}",
                ran.errors
            );
            assert_eq!(folder.read("o"), "old\n");
            assert!(folder.is_clean() && !folder.has("u"), "{script}");
        }
    }
    let ran = folder.sh("PATH=/nowhere $T check a.bed.gz");
    assert_eq!(ran.status, Some(2));
    assert!(ran.errors.contains("gzip can't be run"), "{}", ran.errors);
    for script in [
        "$T lift $E/a.chain a.bed.gz o.gz u",
        "$T format --out b.bed.gz a.bed.gz",
    ] {
        let ran = folder.sh(script);
        assert!(
            ran.status == Some(2) && ran.errors.contains("run gzip on it"),
            "{}",
            ran.errors
        );
    }
}

/// More of a damaged file may never come.
#[test]
fn a_damaged_compressed_file_is_not_waited_for() {
    let mut child = piped(&["check", "--kind", "bed", "-"]);
    let mut input = child.stdin.take().expect("a pipe");
    // A header, then bytes that no compressed file has.
    let damaged = [&b"\x1F\x8B\x08\0\0\0\0\0\0\x03"[..], &[0xFF; 1 << 20]].concat();
    // The command may end before it has read all.
    let _ = input.write_all(&damaged);
    let late = Instant::now() + Duration::from_secs(120);
    while child.try_wait().expect("a child").is_none() {
        if Instant::now() > late {
            let _ = child.kill();
        }
        thread::sleep(Duration::from_millis(20));
    }
    let ran = Ran::of(child.wait_with_output().expect("the command ends"));
    assert_eq!(ran.status, Some(2), "{}", ran.errors);
    drop(input);
}

/// A terminal is what `script` gives; without it there is none to try.
#[test]
fn long_work_shows_its_progress_at_a_terminal() {
    let folder = Folder::new("progress");
    let slow = "(echo chr1 1 2; sleep 3; echo chr1 1 2) | $T check --kind bed -";
    let ran = folder.sh(slow);
    assert_eq!((ran.errors.as_str(), ran.status), ("", Some(0)));
    if folder.sh("command -v script").status != Some(0) {
        println!("left out: there is no `script`");
        return;
    }
    let at_terminal = |command: &str| {
        let script = format!("script -qec '{command} > out' /dev/null < /dev/null");
        folder.sh(&script).out
    };
    let shown = at_terminal(slow);
    assert!(
        shown.starts_with("\rstandard input: 1 line read\r") && shown.ends_with("\r\u{1b}[K"),
        "{shown:?}"
    );
    assert_eq!(at_terminal(&format!("{slow} --quiet")), "");
}

#[test]
fn a_file_that_is_no_text_has_one_message() {
    let folder = Folder::new("foreign");
    let wide: Vec<u8> = "chr1\t1\t2\n"
        .repeat(500)
        .encode_utf16()
        .flat_map(u16::to_le_bytes)
        .collect();
    folder.write("marked.bed", [b"\xFF\xFE".to_vec(), wide.clone()].concat());
    folder.write("wide.bed", &wide);
    folder.write(
        "zero.bed",
        [b"chr1\t1\t2\n".repeat(300), b"\0\n".repeat(300)].concat(),
    );
    folder.sh("gzip -k marked.bed; gzip -c marked.bed.gz > twice.bed.gz; echo old > o");
    for (name, place) in [
        ("marked.bed", "1:1"),
        ("wide.bed", "1:2"),
        ("zero.bed", "301:1"),
        ("marked.bed.gz", "1:1"),
        ("twice.bed.gz", "1:1"),
    ] {
        let ran = folder.sh(&format!("$T check {name}"));
        assert!(
            ran.out
                .starts_with(&format!("{name}:{place}: refused by 3: ")),
            "{}",
            ran.out
        );
        assert!(
            ran.out.ends_with("nothing more of it is read\n"),
            "{}",
            ran.out
        );
        assert_eq!((ran.out.lines().count(), ran.status), (2, Some(1)));
        let ran = folder.sh(&format!("$T lift $E/a.chain {name} o u"));
        assert_eq!((folder.read("o").as_str(), ran.status), ("old\n", Some(1)));
        assert!(!folder.has("u") && folder.is_clean());
    }
}

#[test]
fn lines_passed_over_have_allowed_bytes() {
    for (file, told) in [
        (
            &b"# caf\xC3\xA9\nchr1 1 2\n"[..],
            "standard input:1:6: refused by 3: ",
        ),
        (
            b"track name=\"\xFF\"\nchr1 1 2\n",
            "standard input:1:13: refused by 3: ",
        ),
        (b"# x\r\nchr1 1 2\n", "standard input:1:4: refused by 3: "),
        (b"  #REF! 1 2\n", "standard input:1:3: refused by 6: "),
    ] {
        let ran = run_on(&["check", "--kind", "bed", "-"], file);
        assert!(
            ran.out.starts_with(told) && ran.status == Some(1),
            "{}",
            ran.out
        );
    }
    let chains = b"chain 1 t 9 + 0 1 q 9 + 0 1 1\n1\n# \xFF\nchain 1 t 9 + 0 1 q 9 + 0 1 2\n1\n";
    let ran = run_on(&["check", "--kind", "chain", "-"], chains);
    assert!(
        ran.out.starts_with("standard input:3:3: refused by 3: "),
        "{}",
        ran.out
    );
}

#[test]
fn strict_runs_refuse_what_is_noted() {
    let folder = Folder::new("strict");
    folder.write("a.bed", "tA\t10\t20\t\t5\ntA\t10\t20\tx\n#tA\t10\t20\n");
    let ran = folder.sh("$T format --strict a.bed");
    assert_eq!((ran.out.as_str(), ran.status), ("tA\t10\t20\tx\n", Some(1)));
    assert_eq!(
        folder.sh("$T format --strict --out o a.bed").status,
        Some(1)
    );
    assert!(!folder.has("o"));
    let ran = folder.sh("$T lift --strict $E/a.chain a.bed o u");
    assert_eq!(
        (folder.read("o").as_str(), ran.status),
        ("qB\t65\t75\tx\n", Some(1))
    );
    assert!(folder
        .read("u")
        .starts_with("# a note counts as a refusal: an empty cell"));
    assert!(ran
        .errors
        .contains("lines: 3 read = 1 lifted + 1 not lifted + 1 passed over\n"));
}

#[test]
fn a_flood_is_counted_by_number() {
    let file = [
        b"chr1 x 2\n".repeat(25),
        b"chr1 5 2\n".repeat(20),
        b"chr1 1 2 2-Sep\n".repeat(22),
        b"chr1 x 2\n".to_vec(),
    ]
    .concat();
    let ran = run_on(&["check", "--kind", "bed", "-"], &file);
    let count = |what: &str| ran.out.lines().filter(|line| line.contains(what)).count();
    assert_eq!(
        (
            count(": refused by 4: "),
            count(": refused by 7: "),
            count(": note: ")
        ),
        (20, 20, 20)
    );
    assert!(ran
        .out
        .contains("standard input: 2 more noted, the last in line 67; --all shows them\n"));
    assert!(ran
        .out
        .contains("standard input: 6 more refused by 4, the last in line 68; --all shows them\n"));
    assert!(!ran.out.contains("more refused by 7"));
    let ran = run_on(&["check", "--all", "--kind", "bed", "-"], &file);
    assert_eq!(ran.out.lines().count(), 26 + 20 + 22 + 1);
}

#[test]
fn a_table_and_a_quiet_run() {
    let file = b"chr1 x 2\nchr1 1 2 2-Sep\nchr1 1 2\n";
    let ran = run_on(&["check", "--tsv", "--kind", "bed", "-"], file);
    let rows: Vec<Vec<&str>> = ran
        .out
        .lines()
        .map(|row| row.split('\t').collect())
        .collect();
    assert_eq!(
        rows[0],
        ["file", "line", "column", "number", "meaning", "fault", "hint"]
    );
    assert_eq!(rows[1][..4], ["standard input", "1", "6", "4"]);
    assert_eq!(rows[2][..5], ["standard input", "2", "10", "0", "note"]);
    assert!(rows.len() == 3 && rows.iter().all(|row| row.len() == 7));
    assert_eq!(ran.status, Some(1));
    let many = b"chr1 x 2\n".repeat(100);
    let ran = run_on(&["check", "--tsv", "--kind", "bed", "-"], &many);
    assert_eq!(ran.out.lines().count(), 101);
    let ran = run_on(&["check", "--quiet", "--kind", "bed", "-"], file);
    assert_eq!((ran.out.lines().count(), ran.status), (1, Some(1)));
    let ran = run_on(&["check", "--quiet", "--kind", "bed", "-"], &many);
    assert_eq!(ran.out.lines().count(), 21);
    assert!(ran.out.contains("standard input: 80 more refused by 4"));
    let ran = run_on(&["check", "--quiet", "--kind", "bed", "-"], b"chr1 1 2\n");
    assert_eq!(
        (ran.out.as_str(), ran.errors.as_str(), ran.status),
        ("", "", Some(0))
    );
    let ran = run_on(&["format", "--quiet", "--kind", "bed", "-"], b"chr1 1 2\n");
    assert_eq!(
        (ran.out.as_str(), ran.errors.as_str(), ran.status),
        ("chr1\t1\t2\n", "", Some(0))
    );
}

#[test]
fn what_ends_the_run_is_told_last() {
    let folder = Folder::new("last");
    folder.write("a.bed", "chr1 x 2\n".repeat(30));
    folder.sh("gzip -c a.bed > whole.gz; head -c 30 whole.gz > cut.bed.gz");
    for script in [
        "$T format a.bed cut.bed.gz",
        "$T lift $E/a.chain a.bed o u > /dev/null; $T lift $E/a.chain a.bed /dev/full /dev/full",
        "$T format --out o a.bed",
    ] {
        let ran = folder.sh(script);
        let last = ran.errors.lines().last();
        assert!(
            last.is_some_and(|line| line.starts_with("tenderchock: ")),
            "{}",
            ran.errors
        );
        assert!(
            ran.errors.starts_with("a.bed:1:6: refused by 4")
                || ran.errors.contains("a.chain: 1 chain")
        );
    }
}

#[test]
fn an_output_that_is_no_file_is_all_or_nothing_too() {
    let folder = Folder::new("direct");
    folder.write("bad.bed", "chr1 1 2\nbad\n");
    folder.write("good.chain", "chain 1 t 9 + 0 1 q 9 + 0 1 1\n1\n");
    folder.sh("(cat good.chain; echo chain 1 x) > bad.chain");
    for script in [
        "$T format --out - bad.bed",
        "$T format --out /dev/stdout bad.bed",
        "$T format --out /dev/stdout bad.bed | cat",
        "$T turn bad.chain",
        "$T turn --out - bad.chain",
    ] {
        let ran = folder.sh(script);
        assert_eq!(ran.out, "", "{script}");
        let last = "tenderchock: something is refused, so nothing is written\n";
        assert!(ran.errors.ends_with(last), "{script}: {}", ran.errors);
    }
    for (script, out) in [
        ("$T format bad.bed", "chr1\t1\t2\n"),
        ("$T format --keep-going --out - bad.bed", "chr1\t1\t2\n"),
        (
            "$T turn --keep-going bad.chain",
            "chain 1 q 9 + 0 1 t 9 + 0 1 1\n1\n\n",
        ),
    ] {
        let ran = folder.sh(script);
        assert_eq!((ran.out.as_str(), ran.status), (out, Some(1)), "{script}");
    }
}

/// What is held back is more than fits in memory, and comes whole or not at all.
#[test]
fn a_large_file_is_turned_whole_or_not_at_all() {
    let folder = Folder::new("spool");
    let chain = |id: u32| format!("chain 1 t 9 + 0 1 q 9 + 0 1 {id}\n1\n\n");
    let turned = |id: u32| format!("chain 1 q 9 + 0 1 t 9 + 0 1 {id}\n1\n\n");
    let many = 60_000;
    folder.write("a.chain", (0..many).map(chain).collect::<String>());
    folder.sh("(cat a.chain; echo chain) > bad.chain; mkdir tmp");
    let ran = folder.sh("TMPDIR=tmp $T turn a.chain; ls -A tmp");
    assert!(ran.out == (0..many).map(turned).collect::<String>());
    let ran = folder.sh("TMPDIR=tmp $T turn bad.chain; echo $?; ls -A tmp");
    assert_eq!(ran.out, "1\n");
    let ran = folder.sh("TMPDIR=nowhere $T turn a.chain");
    assert_eq!((ran.out.as_str(), ran.status), ("", Some(2)));
    assert!(
        ran.errors.contains("tenderchock: a file in nowhere: "),
        "{}",
        ran.errors
    );
}

/// What lies behind some refusals is seen from the words beside them.
#[test]
fn what_often_goes_wrong_has_a_hint() {
    for (kind, line, hint) in [
        (
            "bed",
            "chr1\t1\t2\tn\t.\t+",
            "`.` is no number; where there is no value, write 0",
        ),
        (
            "bed",
            "chrom\tstart\tend",
            "a heading? delete the line, or put `#` at its front",
        ),
        (
            "bed",
            "Chr\tchromStart\tchrom_end\tname",
            "a heading? delete the line, or put `#` at its front",
        ),
        (
            "psl",
            &"matches ".repeat(21),
            "a heading? delete the line, or put `#` at its front",
        ),
    ] {
        let ran = run_on(&["check", "--kind", kind, "-"], line.as_bytes());
        assert!(ran.out.contains(": refused by 4: "), "{}", ran.out);
        assert!(
            ran.out.contains(&format!("(hint: {hint})\n")),
            "{}",
            ran.out
        );
    }
    let ran = run_on(&["check", "--kind", "bed", "-"], b"chr1 x 2");
    assert!(!ran.out.contains("heading"), "{}", ran.out);
    let ran = run(&["lift", "regions.bed", "a.chain", "out", "unmapped"]);
    let told = "tenderchock: the chain file comes first: lift a.chain regions.bed ..\n";
    assert!(ran.errors.starts_with(told), "{}", ran.errors);
    assert_eq!(ran.status, Some(2));
}
